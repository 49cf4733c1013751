//! What the unchanged Rust says of a table's text: its `parse`. What it doesn't refuse but its parser can tell, how deep lists and
//! objects stand and whether a name comes twice, is asked of that parser, and so is a string alone.

use std::{ borrow::Cow, collections::HashSet, fmt };
use oracle::segment_table::SegmentTable;
use serde::de::{ Deserialize, Deserializer, MapAccess, SeqAccess, Visitor };
use serde_json::Value;
use super::{ Said, refusal, refused };
use crate::{ case::Answer, reference::{ Refusal, json::MOST_OPEN, table::{ MOST_SEGMENTS, MOST_SOURCES }, texts::{ MOST_TEXT, work_needed } } };

/// Shorter texts have no 257 sources and no 513 segments
const SHORT: usize = 15_000;

pub fn says(text: &[u8], room: &[usize; 5]) -> Said {
    match parsed(text, room[4]) {
        Ok(Ok(table)) => accepted(&table, room),
        Ok(Err(refusal)) => refused(refusal),
        Err(said) => said,
    }
}

/// The names of the sources. Those of a table that `check` refuses, which `parse` doesn't answer, are its parser's
pub fn names(text: &[u8], work: usize) -> Said {
    match parsed(text, work) {
        Ok(Ok(table)) => Said::Names(table.sources.into_iter().map(|source| source.name).collect()),
        Ok(Err(_)) => {
            let value: Value = serde_json::from_slice(text).unwrap_or_default();
            let name = |source: &Value| source["name"].as_str().unwrap_or_default().to_owned();
            Said::Names(value["sources"].as_array().map_or(vec![], |sources| sources.iter().map(name).collect()))
        }
        Err(said) => said,
    }
}

/// The string that the Rust's parser reads from a quotation mark on, whatever follows it
pub fn string(text: &[u8], at: u64, room: usize) -> Said {
    if text.len() > MOST_TEXT { return Said::Outside; }
    let rest = usize::try_from(at).ok().and_then(|at| text.get(at..)).filter(|rest| rest.starts_with(b"\""));
    match rest.and_then(|rest| serde_json::Deserializer::from_slice(rest).into_iter::<String>().next()) {
        Some(Ok(string)) if string.len() > room => refused((32, 0)),
        Some(Ok(string)) => Said::Answer(Answer { dates: string.clone().into_bytes(), ..Answer::of(&[string.len() as i128]) }),
        _ => refused((61, 0)),
    }
}

/// The bytes between the quotation marks of a string, as the Rust's parser reads them
pub fn resolved(text: &[u8], start: usize, length: usize) -> Option<String> { serde_json::from_slice(text.get(start.checked_sub(1)?..start + length + 1)?).ok() }

/// The table of a text, or the refusal of `check`; else what is said before a table is checked
fn parsed(text: &[u8], work: usize) -> Result<Result<SegmentTable, Refusal>, Said> {
    if text.len() > MOST_TEXT { return Err(Said::Outside); }
    if work < work_needed(text.len()) || is_misread(text) { return Err(Said::Silent); }
    let parsed = SegmentTable::parse(text);
    if let Err(message) = &parsed && message.starts_with("not a JSON document") {
        return Err(if message.contains("number out of range") && has_too_large(text) { Said::Silent } else { refused((61, 0)) });
    }
    let Ok(seen) = serde_json::from_slice::<Seen>(text) else { panic!("the parser reads a text that it doesn't read") };
    if seen.depth > MOST_OPEN { return Err(refused((61, 0))); }
    if seen.repeats { return Err(refused((62, 0))); }
    match parsed {
        Ok(table) if table.sources.len() > MOST_SOURCES || table.segments.len() > MOST_SEGMENTS => Err(Said::Outside),
        Ok(table) => Ok(Ok(table)),
        Err(message) => by_message(text, &message).map(Err),
    }
}

/// The refusal of `check` that is a message of `parse` on JSON; else what is said. "no sources" and "no segments" are messages of `check` too, where there is such a
/// list and it is empty
fn by_message(text: &[u8], message: &str) -> Result<Refusal, Said> {
    if message == "no version" || message.starts_with("version ") { return Err(refused((63, 0))); }
    let lists = || {
        let value: Value = serde_json::from_slice(text).unwrap_or_default();
        ["sources", "segments"].map(|name| value.get(name).and_then(Value::as_array).map(Vec::len))
    };
    let of_check = match message {
        "no sources" => lists()[0].is_some(),
        "no segments" => lists()[1].is_some(),
        _ => ["source ", "segment ", "the table names a telemetry log, "].iter().any(|start| message.starts_with(start)),
    };
    if !of_check { return Err(refused((64, 0))); }
    if text.len() > SHORT {
        let [sources, segments] = lists().map(Option::unwrap_or_default);
        if sources > MOST_SOURCES || segments > MOST_SEGMENTS { return Err(Said::Outside); }
    }
    Ok(refusal(message))
}

/// The records of an accepted table as words; 32 where they are more than there is room for
fn accepted(table: &SegmentTable, room: &[usize; 5]) -> Said {
    let (sources, segments) = (table.sources.len(), table.segments.len());
    let (mut words, mut longs, mut dates) = (Vec::new(), Vec::new(), Vec::new());
    for s in &table.sources {
        let time = s.creation_time.as_ref().map_or([0; 3], |time| [1, dates.len() as u64, time.len() as u64]);
        dates.extend(s.creation_time.iter().flat_map(|time| time.bytes()));
        let clock = s.clock.as_ref().map_or([0; 4], |c| [1 + c.modulus.is_some() as u64, c.rate.0, c.rate.1, c.modulus.unwrap_or(0)]);
        let origin = s.zcam_imu_origin_us();
        words.extend([s.frames, s.fps.0, s.fps.1]);
        words.extend(time);
        words.extend(clock);
        words.extend([s.size, origin.is_some() as u64, origin.unwrap_or(0)]);
    }
    for s in &table.segments {
        words.extend([s.source as u64, s.src_first_frame, s.frame_count, s.out_first_frame, s.clock_shift.is_some() as u64]);
        longs.extend([s.src_start_us, s.out_start_us, s.duration_us, s.src_capture_start_us, s.out_capture_start_us, s.capture_duration_us]);
        longs.push(s.clock_shift.unwrap_or(0));
    }
    if 13 * sources > room[0] || 5 * segments > room[1] || 7 * segments > room[2] || dates.len() > room[3] { return refused((32, 0)); }
    let frames = table.segments.last().map_or(0, |s| s.out_end_frame());
    let values = [frames as i128, sources as i128, segments as i128, dates.len() as i128, table.telemetry_log.is_some() as i128];
    Said::Answer(Answer { words, longs, dates, ..Answer::of(&values) })
}

/// Whether a point stands after twenty digits: of an int past 2^64 - 1 the Rust's parser takes a point without digits, and may refuse
/// one with a digit
fn is_misread(text: &[u8]) -> bool {
    let mut digits = 0;
    text.iter().any(|c| {
        let found = *c == b'.' && digits >= 20;
        digits = if c.is_ascii_digit() { digits + 1 } else { 0 };
        found
    })
}

/// Whether a number in the text may be too large for an f64, which the Rust's parser refuses
fn has_too_large(text: &[u8]) -> bool {
    let parts = text.split(|c| !matches!(c, b'0'..=b'9' | b'.' | b'e' | b'E' | b'+' | b'-'));
    parts.filter_map(|part| std::str::from_utf8(part).ok()?.parse::<f64>().ok()).any(|number| number.abs() > 1.797e308)
}

/// What the parser meets in a document: whether an object has a name twice, and how many lists and objects stand one in another
#[derive(Default)]
struct Seen {
    repeats: bool,
    depth: usize,
}

impl Seen {
    fn takes(&mut self, inner: Seen) {
        self.repeats |= inner.repeats;
        self.depth = self.depth.max(inner.depth + 1);
    }
}

impl<'de> Deserialize<'de> for Seen {
    fn deserialize<D: Deserializer<'de>>(deserializer: D) -> Result<Self, D::Error> { deserializer.deserialize_any(Sight) }
}

struct Sight;

impl<'de> Visitor<'de> for Sight {
    type Value = Seen;

    fn expecting(&self, to: &mut fmt::Formatter) -> fmt::Result { to.write_str("a value") }
    fn visit_bool<E>(self, _: bool) -> Result<Seen, E> { Ok(Seen::default()) }
    fn visit_i64<E>(self, _: i64) -> Result<Seen, E> { Ok(Seen::default()) }
    fn visit_u64<E>(self, _: u64) -> Result<Seen, E> { Ok(Seen::default()) }
    fn visit_f64<E>(self, _: f64) -> Result<Seen, E> { Ok(Seen::default()) }
    fn visit_str<E>(self, _: &str) -> Result<Seen, E> { Ok(Seen::default()) }
    fn visit_unit<E>(self) -> Result<Seen, E> { Ok(Seen::default()) }

    fn visit_seq<A: SeqAccess<'de>>(self, mut items: A) -> Result<Seen, A::Error> {
        let mut seen = Seen { depth: 1, ..Seen::default() };
        while let Some(item) = items.next_element()? { seen.takes(item); }
        Ok(seen)
    }

    fn visit_map<A: MapAccess<'de>>(self, mut members: A) -> Result<Seen, A::Error> {
        let mut seen = Seen { depth: 1, ..Seen::default() };
        let mut names = HashSet::new();
        while let Some((Name(name), value)) = members.next_entry()? {
            seen.takes(value);
            seen.repeats |= !names.insert(name);
        }
        Ok(seen)
    }
}

/// A name, lent by the text where nothing in it is escaped
struct Name<'a>(Cow<'a, str>);

impl<'de> Deserialize<'de> for Name<'de> {
    fn deserialize<D: Deserializer<'de>>(deserializer: D) -> Result<Self, D::Error> { deserializer.deserialize_str(Naming) }
}

struct Naming;

impl<'de> Visitor<'de> for Naming {
    type Value = Name<'de>;

    fn expecting(&self, to: &mut fmt::Formatter) -> fmt::Result { to.write_str("a name") }
    fn visit_borrowed_str<E>(self, name: &'de str) -> Result<Name<'de>, E> { Ok(Name(Cow::Borrowed(name))) }
    fn visit_str<E>(self, name: &str) -> Result<Name<'de>, E> { Ok(Name(Cow::Owned(name.to_owned()))) }
}
