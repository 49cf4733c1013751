//! A table's own text: the refusals 60 to 64, the limits, the room, and the words of the records; then what `check` says of them.
//! Where the names of its sources stand, and what any string in it says.

use super::{ Refusal, json::{ self, Json }, table::{ MOST_SEGMENTS, MOST_SOURCES, Table } };
use crate::case::{ self, Answer };

/// The most bytes of a text (60)
pub const MOST_TEXT: usize = 1_048_576;
/// The least words of work
const LEAST_WORK: usize = 3840;

/// How many words of work a text of so many bytes needs: a quarter of its length, rounded up, and 3,840 at least
pub fn work_needed(len: usize) -> usize { len.div_ceil(4).max(LEAST_WORK) }

/// The table of a text, with room for sources, words, stamps, creation times and work
pub fn read(text: &[u8], room: &[usize; 5]) -> Result<Answer, Refusal> {
    let table = tested(text, room[4])?.1;
    let (sources, segments) = (table.sources.len() / case::SOURCE_WORDS, table.segments.len() / 5);
    let needed = [table.sources.len(), table.segments.len(), table.times.len(), table.text.len()];
    if needed.iter().zip(room).any(|(needed, room)| needed > room) { return Err((32, 0)); }
    let frames = Table::checked(&table)?.frames;
    let values = [frames as i128, sources as i128, segments as i128, table.text.len() as i128, table.log as i128];
    Ok(Answer { words: [table.sources, table.segments].concat(), longs: table.times, dates: table.text, ..Answer::of(&values) })
}

/// A text's document and its records, with so much work: all tests but that of the room for the answer and that of the table
fn tested(text: &[u8], work: usize) -> Result<(Json<'_>, case::Table), Refusal> {
    if text.len() > MOST_TEXT { return Err((60, 0)); }
    if work < work_needed(text.len()) { return Err((32, 1)); }
    let document = json::document(text).ok_or((61, 0))?;
    if document.repeats_a_name() { return Err((62, 0)); }
    if document.member("version").and_then(Json::word) != Some(1) { return Err((63, 0)); }
    let table = table(&document).ok_or((64, 0))?;
    if table.sources.len() > case::SOURCE_WORDS * MOST_SOURCES || table.segments.len() > 5 * MOST_SEGMENTS { return Err((2, 0)); }
    Ok((document, table))
}

/// Where the names of a text's sources stand, with room for their places and for work
pub fn names(text: &[u8], room: &[usize; 2]) -> Result<Answer, Refusal> {
    let document = tested(text, room[1])?.0;
    let sources = document.member("sources").and_then(Json::list).unwrap_or_default();
    let places = sources.iter().filter_map(|source| source.member("name")?.quoted()).flat_map(|name| [name.place.0, name.place.1]);
    let words: Vec<u64> = places.map(|place| place as u64).collect();
    if words.len() > room[0] { return Err((32, 0)); }
    Ok(Answer { words, ..Answer::of(&[sources.len() as i128]) })
}

/// The bytes of the string whose quotation mark stands at an offset, with room for them
pub fn string(text: &[u8], at: u64, room: usize) -> Result<Answer, Refusal> {
    if text.len() > MOST_TEXT { return Err((60, 0)); }
    let dates = json::string_at(text, at).ok_or((61, 0))?.content.into_owned();
    if dates.len() > room { return Err((32, 0)); }
    let length = dates.len() as i128;
    Ok(Answer { dates, ..Answer::of(&[length]) })
}

/// The records of a document, their creation times one after the other; none where a member is missing or of another type
fn table(document: &Json) -> Option<case::Table> {
    let mut table = case::Table::default();
    for item in document.member("sources")?.list()? { source(item, &mut table)?; }
    for item in document.member("segments")?.list()? { segment(item, &mut table)?; }
    if let Some(log) = document.member("telemetry_log") {
        telemetry_log(log)?;
        table.log = true;
    }
    Some(table)
}

fn pair(value: &Json) -> Option<[u64; 2]> {
    match value.list()? { [a, b] => Some([a.word()?, b.word()?]), _ => None }
}

fn source(item: &Json, table: &mut case::Table) -> Option<()> {
    item.member("name")?.text()?;
    let size = item.member("size")?.word()?;
    let frames = item.member("frames")?.word()?;
    let [numerator, denominator] = pair(item.member("fps")?)?;
    let created = match item.member("creation_time")? {
        Json::Null => [0; 3],
        time => {
            let time = time.text()?;
            let from = table.text.len();
            table.text.extend(time);
            [1, from as u64, time.len() as u64]
        }
    };
    let clock = clock(item.member("clock")?)?;
    let origin = item.member("zcam_imu_origin_us").and_then(Json::word).map_or([0; 2], |origin| [1, origin]);
    table.sources.extend([frames, numerator, denominator]);
    table.sources.extend(created);
    table.sources.extend(clock);
    table.sources.push(size);
    table.sources.extend(origin);
    Some(())
}

/// Kind, ticks, per, modulus
fn clock(value: &Json) -> Option<[u64; 4]> {
    if value.is_null() { return Some([0; 4]); }
    value.member("name")?.text()?;
    let [ticks, per] = pair(value.member("rate")?)?;
    match value.member("modulus")? {
        Json::Null => Some([1, ticks, per, 0]),
        modulus => Some([2, ticks, per, modulus.word()?]),
    }
}

fn segment(item: &Json, table: &mut case::Table) -> Option<()> {
    for name in ["start", "entry", "end"] { item.member(name)?.text()?; }
    let requested = item.member("requested")?;
    if !requested.is_null() && !requested.is_object() { return None; }
    for name in ["source", "src_first_frame", "frame_count", "out_first_frame"] { table.segments.push(item.member(name)?.word()?); }
    for name in ["src_start_us", "out_start_us", "duration_us", "src_capture_start_us", "out_capture_start_us", "capture_duration_us"] {
        table.times.push(item.member(name)?.long()?);
    }
    let (flag, shift) = match item.member("clock_shift")? { Json::Null => (0, 0), shift => (1, shift.long()?) };
    table.segments.push(flag);
    table.times.push(shift);
    Some(())
}

/// The log's members, of which nothing else is asked
fn telemetry_log(log: &Json) -> Option<()> {
    let name = log.member("name")?;
    if !name.is_null() { name.text()?; }
    log.member("kind")?.text()?;
    log.member("size")?.word()?;
    u32::try_from(log.member("crc32")?.word()?).ok()?;
    Some(())
}
