//! What the unchanged Rust says of a case.

mod standard;
mod texts;

use std::{ fmt::Write, panic::{ AssertUnwindSafe, catch_unwind }, sync::atomic::{ AtomicBool, Ordering } };
use oracle::segment_table::{ Found, SegmentTable, VideoFrameTimes, VideoFrames, reach };
use crate::case::{ Answer, Case, Lent, SOURCE_WORDS, Table };
use crate::reference::{ GREATEST_SCALE, MOST_BYTES, Refusal, table };
pub use standard::Way;
pub use texts::resolved;

/// What the Rust says
#[derive(Clone, Debug, PartialEq)]
pub enum Said {
    Answer(Answer),
    /// No frame times of a moov, which is 31 or 36: it doesn't say why
    None,
    /// The names of a table's sources: where they stand it doesn't say
    Names(Vec<String>),
    /// A sum left its type: a release build wraps there, a debug build panics
    Panicked,
    /// The input is outside the domain of RULES 13.2, room aside
    Outside,
    /// It has no such call or mode, the input can't be put into words for it, or it misreads a number in it
    Silent,
}

/// A table that the Rust can't be asked about: 1, 2, or a creation time that isn't UTF-8
#[derive(Debug)]
pub enum Unasked { Outside, Silent }

static ASKED: AtomicBool = AtomicBool::new(false);

/// Whether the Rust is being asked
pub fn asked() -> bool { ASKED.load(Ordering::Relaxed) }

pub fn says(case: &Case) -> Said {
    ASKED.store(true, Ordering::Relaxed);
    let said = catch_unwind(AssertUnwindSafe(|| said(case))).unwrap_or(Said::Panicked);
    ASKED.store(false, Ordering::Relaxed);
    said
}

fn said(case: &Case) -> Said {
    match case {
        Case::IsUtcSecond { bytes } => match std::str::from_utf8(bytes) {
            Ok(text) => one(reach::is_utc_second(text) as u64),
            Err(_) => Said::Silent,
        },
        Case::TicksToUs { scale, .. } if *scale > GREATEST_SCALE => Said::Outside,
        Case::TicksToUs { ticks, scale } => match reach::ticks_to_us(*ticks, *scale) {
            Some(us) => Said::Answer(Answer::of(&[us as i128])),
            None => refused((23, 0)),
        },
        Case::Check { table } => of_table(table, |t| one(t.segments.last().unwrap().out_end_frame())),
        Case::SegmentOfFrame { table, frame } | Case::SegmentOfFrameRecords { table, frame } => of_table(table, |t| one(t.segment_of_frame(*frame) as u64)),
        Case::SegmentsOfFrames { table, frames, .. } => of_table(table, |t| segments(t, frames)),
        Case::SegmentOfTimeUs { table, time } => of_table(table, |t| one(t.segment_of_time_us(*time) as u64)),
        Case::Continues { table, segment } => of_table(table, |t| one(t.continues(*segment as usize) as u64)),
        Case::RowsOfTable { table, .. } => of_table(table, |_| Said::Silent),
        Case::ValidateNoVideo { table } => of_table(table, |_| refused((21, 0))),
        Case::ValidateConstant { table, frames, num, den } => of_table(table, |t| constant(t, *frames, (*num, *den))),
        Case::ValidateTimes { table, scale, starts, end, nominal } => of_table(table, |t| {
            if *scale > GREATEST_SCALE || starts.len() > MOST_BYTES { return Said::Outside; }
            let times = VideoFrameTimes { timescale: *scale, starts: starts.clone(), end: *end, nominal: *nominal };
            validated(t, &VideoFrames::Times(times))
        }),
        Case::BoxSize { data, .. } if data.len() > MOST_BYTES => Said::Outside,
        Case::BoxSize { data, remaining } => reach::box_size(data, *remaining).map_or(refused((31, 0)), place),
        Case::Children { payload, at } => {
            if payload.len() > MOST_BYTES || *at > payload.len() as u64 { return Said::Outside; }
            child_at(payload, *at)
        }
        Case::Child { payload, .. } if payload.len() > MOST_BYTES => Said::Outside,
        Case::Child { payload, kind } => {
            let found = reach::child(payload, &kind.to_be_bytes());
            let found = found.map(|part| (part.as_ptr() as u64 - payload.as_ptr() as u64, part.len() as u64));
            found.map_or_else(|| stopped(payload, 0, payload.len() as u64, false), place)
        }
        Case::FindBox { bytes, from, to, kind, text_types } => {
            if bytes.len() > MOST_BYTES || *to > bytes.len() as u64 || from > to { return Said::Outside; }
            let found = reach::find_box(bytes, *from, *to, &kind.to_be_bytes(), *text_types).unwrap();
            found.map_or_else(|| stopped(bytes, *from, *to, *text_types), place)
        }
        Case::TableText { file } if file.len() > MOST_BYTES => Said::Outside,
        Case::TableText { file } => table_text(file),
        Case::VideoFrameTimesOfMoov { moov, .. } if moov.len() > MOST_BYTES => Said::Outside,
        Case::VideoFrameTimesOfMoov { moov, standard: false, .. } => frame_times(moov),
        Case::VideoFrameTimesOfMoov { moov, standard: true, .. } => standard::says(moov),
        Case::McrawTimes { timestamps, .. } if outside(timestamps) => Said::Outside,
        Case::McrawTimes { timestamps, .. } => reach::mcraw_times(timestamps).map_or(refused((31, 0)), times),
        Case::CheckMcraw { table, timestamps, .. } => of_table(table, |t| check_mcraw(table, t, timestamps)),
        Case::Cut { .. } | Case::Join { .. } | Case::Merge { .. } | Case::Origin { .. } | Case::Cuts { .. } | Case::Origins { .. } => Said::Silent,
        Case::ReadTable { text, room } => texts::says(text, room),
        Case::SourceNames { text, room } => texts::names(text, room[1]),
        Case::JsonString { text, at, room } => texts::string(text, *at, *room),
    }
}

/// How the Rust is asked about a case of frame times by the standard; none of any other case
pub fn way(case: &Case) -> Option<Way> {
    match case {
        Case::VideoFrameTimesOfMoov { moov, standard: true, .. } if moov.len() <= MOST_BYTES => Some(standard::way(moov)),
        _ => None,
    }
}

/// All children of a payload
pub fn children(payload: &[u8]) -> Vec<(u32, u64, u64)> { reach::children(payload).collect() }

fn one(value: u64) -> Said { Said::Answer(Answer::of(&[value as i128])) }
fn refused(refusal: Refusal) -> Said { Said::Answer(Answer::refused(refusal)) }

fn place((start, length): (u64, u64)) -> Said { Said::Answer(Answer::of(&[start as i128, length as i128])) }

/// The first child of what follows an offset. The next one starts where its payload ends
fn child_at(payload: &[u8], at: u64) -> Said {
    match reach::children(&payload[at as usize..]).next() {
        Some((kind, start, length)) => Said::Answer(Answer::of(&[kind as i128, (at + start) as i128, length as i128, (at + start + length) as i128])),
        None => stopped(payload, at, payload.len() as u64, false),
    }
}

/// Why a search in the range found nothing, told by its children there: 36 at the first of a type that isn't text, where it is
/// to be, or at what follows them all; 31 where fewer than 8 bytes do
fn stopped(bytes: &[u8], from: u64, to: u64, text_types: bool) -> Said {
    let range = &bytes[from as usize..to as usize];
    let mut at = 0;
    for (kind, start, length) in reach::children(range) {
        if text_types && !kind.to_be_bytes().iter().all(|c| c.is_ascii_graphic() || *c == b' ') { break; }
        at = start + length;
    }
    refused(if at + 8 > range.len() as u64 { (31, 0) } else { (36, from + at) })
}

/// Whether a header of a moov at an offset is one that the Rust has no size for: it is reached over the boxes that end before
/// it, and through those that it lies in
pub fn is_bad_header(moov: &[u8], at: u64) -> bool {
    let (mut from, mut to) = (0, moov.len() as u64);
    while from <= at && to - from >= 8 {
        match reach::box_size(&moov[from as usize..to as usize], to - from) {
            None => return from == at,
            Some((size, header)) if at < from + size => (from, to) = (from + header, from + size),
            Some((size, _)) => from += size,
        }
    }
    false
}

fn times(times: VideoFrameTimes) -> Said {
    let values = [times.starts.len() as i128, times.timescale as i128, times.nominal as i128, times.end as i128];
    Said::Answer(Answer { longs: times.starts, ..Answer::of(&values) })
}

/// The Rust looks at the nominal last. Where a time left its type before that, a release build still answers None
fn frame_times(moov: &[u8]) -> Said {
    match catch_unwind(|| reach::video_frame_times_of_moov(moov)) {
        Ok(found) => found.map_or(Said::None, times),
        Err(_) if released::segment_table::reach::video_frame_times_of_moov(moov).is_none() => Said::None,
        Err(_) => Said::Panicked,
    }
}

/// Too many timestamps, or timestamps that fall
fn outside(timestamps: &[i64]) -> bool {
    timestamps.len() > MOST_BYTES || timestamps.windows(2).any(|w| w[1] < w[0])
}

/// The table's refusal, or what the accepted table answers
fn of_table(lent: &Lent, answer: impl Fn(&SegmentTable) -> Said) -> Said {
    match lent.parsed.get_or_init(|| parse(&lent.table).ok()) {
        Some(Ok(table)) => answer(table),
        Some(Err(refusal)) => refused(*refusal),
        None => match json(&lent.table) {
            Err(Unasked::Silent) => Said::Silent,
            _ => Said::Outside,
        },
    }
}

fn parse(table: &Table) -> Result<Result<SegmentTable, Refusal>, Unasked> {
    let text = json(table)?;
    let parsed = SegmentTable::parse(text.as_bytes()).map_err(|message| refusal(&message));
    if let Ok(parsed) = &parsed {
        let read = parsed.sources.iter().map(|s| [s.size, s.zcam_imu_origin_us().is_some() as u64, s.zcam_imu_origin_us().unwrap_or(0)]);
        let lent = table.sources.chunks(SOURCE_WORDS).map(|s| [s[10], s[11], s[11] * s[12]]);
        if !read.eq(lent) {
            eprintln!("compare: the Rust reads other sizes or origins than were lent, of {text}");
            std::process::exit(1);
        }
    }
    Ok(parsed)
}

/// The table as the document that `parse` reads
pub fn json(lent: &Table) -> Result<String, Unasked> {
    let table = table::Table::lent(lent).map_err(|_| Unasked::Outside)?;
    let mut text = String::from("{\"version\":1,");
    if table.log { text += "\"telemetry_log\":{\"name\":null,\"kind\":\"gcsv\",\"size\":1,\"crc32\":1},"; }
    text += "\"sources\":[";
    for (k, source) in table.sources.iter().enumerate() {
        source_json(&mut text, k, source).ok_or(Unasked::Silent)?;
    }
    text += "],\"segments\":[";
    for (k, segment) in table.segments.iter().enumerate() { segment_json(&mut text, k, segment); }
    text += "]}";
    Ok(text)
}

/// How a document says that no origin is known: without the member, or with one that isn't a whole number
const UNKNOWN: [&str; 10] = [
    "",
    ",\"zcam_imu_origin_us\":null",
    ",\"zcam_imu_origin_us\":-1",
    ",\"zcam_imu_origin_us\":1.5",
    ",\"zcam_imu_origin_us\":1.0",
    ",\"zcam_imu_origin_us\":1e3",
    ",\"zcam_imu_origin_us\":18446744073709551616",
    ",\"zcam_imu_origin_us\":\"1\"",
    ",\"zcam_imu_origin_us\":true",
    ",\"zcam_imu_origin_us\":[1]",
];

fn source_json(text: &mut String, k: usize, s: &table::Source) -> Option<()> {
    if k > 0 { text.push(','); }
    write!(text, "{{\"name\":\"\",\"size\":{},\"frames\":{},\"fps\":[{},{}],\"creation_time\":", s.size, s.frames, s.fps.0, s.fps.1).unwrap();
    match &s.creation_time {
        None => *text += "null",
        Some(bytes) => quoted(text, std::str::from_utf8(bytes).ok()?),
    }
    *text += ",\"clock\":";
    match &s.clock {
        None => *text += "null",
        Some(clock) => {
            write!(text, "{{\"name\":\"\",\"rate\":[{},{}],\"modulus\":", clock.rate.0, clock.rate.1).unwrap();
            match clock.modulus { None => *text += "null", Some(m) => write!(text, "{m}").unwrap() }
            text.push('}');
        }
    }
    match s.origin {
        Ok(origin) => write!(text, ",\"zcam_imu_origin_us\":{origin}").unwrap(),
        Err(word) => *text += UNKNOWN[word as usize % UNKNOWN.len()],
    }
    text.push('}');
    Some(())
}

/// A JSON string
fn quoted(text: &mut String, content: &str) {
    text.push('"');
    for c in content.chars() {
        match c {
            '"' | '\\' => text.extend(['\\', c]),
            c if (c as u32) < 0x20 => write!(text, "\\u{:04x}", c as u32).unwrap(),
            c => text.push(c),
        }
    }
    text.push('"');
}

fn segment_json(text: &mut String, k: usize, s: &table::Segment) {
    if k > 0 { text.push(','); }
    write!(text, "{{\"source\":{},\"src_first_frame\":{},\"frame_count\":{},\"out_first_frame\":{},", s.source, s.src_first_frame, s.frame_count, s.out_first_frame).unwrap();
    write!(text, "\"src_start_us\":{},\"out_start_us\":{},\"duration_us\":{},", s.src_start, s.out_start, s.duration).unwrap();
    write!(text, "\"src_capture_start_us\":{},\"out_capture_start_us\":{},\"capture_duration_us\":{},", s.src_capture_start, s.out_capture_start, s.capture_duration).unwrap();
    *text += "\"requested\":null,\"start\":\"\",\"entry\":\"\",\"end\":\"\",\"clock_shift\":";
    match s.shift { None => *text += "null}", Some(shift) => write!(text, "{shift}}}").unwrap() }
}

/// The number and index of a message of `check`
fn refusal(message: &str) -> Refusal {
    match message {
        "no sources" => return (3, 0),
        "no segments" => return (8, 0),
        _ => {}
    }
    if let Some(rest) = message.strip_prefix("the table names a telemetry log, and source ") { return (7, leading(rest).0); }
    const OF_SOURCES: [(&str, u64); 3] = [(" has ", 4), ("'s creation_time ", 5), ("'s clock runs at ", 6)];
    const OF_SEGMENTS: [(&str, u64); 9] = [
        (" names source ", 9), (" has no frames", 10), ("'s frames overflow", 11), (" has source frames ", 12),
        (" has a negative time", 13), ("'s times overflow", 14), (" starts at frame ", 15), (" starts at ", 16),
        (" has the clock shift ", 17),
    ];
    let (rest, kinds): (&str, &[(&str, u64)]) = match (message.strip_prefix("source "), message.strip_prefix("segment ")) {
        (Some(rest), _) => (rest, &OF_SOURCES),
        (_, Some(rest)) => (rest, &OF_SEGMENTS),
        _ => panic!("check says what has no number: {message}"),
    };
    let (index, rest) = leading(rest);
    match kinds.iter().find(|(words, _)| rest.starts_with(words)) {
        Some((_, number)) => (*number, index),
        None => panic!("check says what has no number: {message}"),
    }
}

/// The number that a text starts with, and the rest of it
fn leading(text: &str) -> (u64, &str) {
    let digits = text.bytes().take_while(u8::is_ascii_digit).count();
    (text[..digits].parse().unwrap_or_else(|_| panic!("no number in {text}")), &text[digits..])
}

/// What its lookup says of each frame
fn segments(table: &SegmentTable, frames: &[u64]) -> Said {
    let words = frames.iter().map(|frame| table.segment_of_frame(*frame) as u64).collect();
    Said::Answer(Answer { words, ..Answer::of(&[frames.len() as i128]) })
}

fn constant(table: &SegmentTable, frames: u64, rate: (u64, u64)) -> Said {
    if rate.0 > GREATEST_SCALE || rate.1 > GREATEST_SCALE { return Said::Outside; }
    validated(table, &VideoFrames::Constant { frames, rate })
}

fn validated(table: &SegmentTable, video: &VideoFrames) -> Said {
    judged(table, video, table.validate(video).map(|_| table.segments.last().unwrap().out_end_frame()))
}

/// The answer of a judgement; where a frame's time can't be had, the message names no segment, and the first whose time
/// the Rust can't give is meant
fn judged(table: &SegmentTable, video: &VideoFrames, found: Result<u64, String>) -> Said {
    let message = match found {
        Ok(frames) => return one(frames),
        Err(message) => message,
    };
    let segment = |p: &dyn Fn(u64) -> bool| table.segments.iter().position(|s| p(s.out_first_frame)).unwrap() as u64;
    if message.starts_with("its segments cover ") { return refused((22, 0)); }
    if message == "a frame time out of range" { return refused((23, segment(&|frame| reach::time_us(video, frame).is_none()))); }
    if let Some(rest) = message.strip_prefix("it puts frame ") { return refused((24, segment(&|frame| frame == leading(rest).0))); }
    if message.starts_with("it ends at ") { return refused((25, 0)); }
    panic!("validate says what has no number: {message}")
}

fn check_mcraw(lent: &Lent, table: &SegmentTable, timestamps: &[i64]) -> Said {
    let fps = table.sources[table.segments[0].source].fps;
    if outside(timestamps) || (timestamps.len() == 1 && (fps.0 > GREATEST_SCALE || fps.1 > GREATEST_SCALE)) { return Said::Outside; }
    let Ok(text) = json(&lent.table) else { return Said::Silent };
    let found: Found = reach::check_mcraw(text.as_bytes(), timestamps);
    let frames = found.map(|t| t.segments.last().unwrap().out_end_frame());
    if frames.as_ref().is_err_and(|message| message == "the recording has no frames") { return refused((35, 0)); }
    let video = match reach::mcraw_times(timestamps) {
        Some(times) => VideoFrames::Times(times),
        None => VideoFrames::Constant { frames: 1, rate: fps },
    };
    judged(table, &video, frames)
}

/// The number is that of `read_isobmff`; it hands out no place, so that is found with the same functions
fn table_text(file: &[u8]) -> Said {
    let places = reach::table_places(file);
    let found = catch_unwind(AssertUnwindSafe(|| reach::read_isobmff(file).unwrap()));
    let number = match &found {
        Ok(None) => 40,
        Ok(Some(Err(message))) if message.starts_with("moov/udta has ") => 41,
        // Found, and then judged against the moov's frame times, which can panic
        _ => 0,
    };
    match number {
        0 => { assert_eq!(places.len(), 1); place(places[0]) }
        number => refused((number, 0)),
    }
}
