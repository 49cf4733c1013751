//! Texts of tables, beside the Rust's `parse` and beside serde_json into structs.

use std::hint::black_box;
use serde::{ Deserialize, de::IgnoredAny };
use super::{ Inputs, Line, Work, median, table_of_sources, timed, turns };
use crate::{ case::{ Call, Case }, generate::texts::{ document, sizes::hostile, trees::raw }, random::Random, reference::texts::work_needed };

/// A text of the most segments takes at most this many times as long as serde_json into structs
const MOST_OF_STRUCTS: f64 = 2.0;
/// A text that takes long to read takes at most this many times as long as the Rust's parse
const MOST_OF_PARSE: f64 = 10.0;

/// A table's text, written plainly. What was requested is numbers: any values there would have a name twice now and then
fn text_of(sources: u64, segments: u64) -> Vec<u8> {
    let mut table = table_of_sources(sources, segments, 10);
    table.text = b"2024-11-17T13:12:46Z".repeat(sources as usize);
    for (k, source) in table.sources.as_chunks_mut::<13>().0.iter_mut().enumerate() { source[3..6].copy_from_slice(&[1, 20 * k as u64, 20]); }
    let mut document = document(&mut Random::new(4), &table).unwrap();
    for segment in document.member("segments").items() {
        let requested = segment.member("requested");
        if requested.members().is_some() { *requested.member("end") = raw(1); }
    }
    document.plainly()
}

fn lent(text: Vec<u8>) -> Case {
    let work = work_needed(text.len());
    Case::ReadTable { text, room: [3328, 2560, 3584, 5120, work] }
}

/// Texts of a small table and of large ones, and those that take long to read
pub fn inputs() -> Inputs {
    let tables = [(1, 3), (64, 512), (256, 512)].map(|(sources, segments)| {
        let text = text_of(sources, segments);
        (format!("{sources} source{}, {segments} segments, {} bytes", if sources == 1 { "" } else { "s" }, text.len()), text)
    });
    let hostile = hostile().into_iter().map(|(name, text)| (name.to_owned(), text));
    tables.into_iter().chain(hostile).map(|(input, text)| (input, lent(text))).collect()
}

/// The names of sources, beside the Rust's parse; strings alone, beside serde_json's
pub fn names_and_strings() -> Inputs {
    let names = [(1, 3), (64, 512), (256, 512)].map(|(sources, segments)| {
        let text = text_of(sources, segments);
        let (input, work) = (format!("{} of {} bytes", if sources == 1 { "1 source".into() } else { format!("{sources} sources") }, text.len()), work_needed(text.len()));
        (input, Case::SourceNames { text, room: [512, work] })
    });
    let strings = [("C0539.MP4", 1), ("x", 1_000_000), ("€", 333_333), ("\\u00e9", 166_666)].map(|(part, times)| {
        let text = format!("\"{}\"", part.repeat(times)).into_bytes();
        (if times == 1 { part.to_owned() } else { format!("{part} {times} times") }, Case::JsonString { room: text.len(), text, at: 0 })
    });
    names.into_iter().chain(strings).collect()
}

/// Prints how the texts of tables stand beside serde_json into structs; whether they are fast enough, and the hostile ones beside parse
pub fn fast(lines: &[Line], runs: usize) -> bool {
    println!();
    let lines = lines.iter().filter(|line| line.call == Call::ReadTable.name());
    inputs().iter().zip(lines).fold(true, |all, ((input, case), line)| {
        let Case::ReadTable { text, .. } = case else { unreachable!() };
        let Some(structs) = structs(text, runs) else {
            if line.ratio > MOST_OF_PARSE { println!("{input}: takes {:.2} times as long as the Rust's parse", line.ratio); }
            return all && line.ratio <= MOST_OF_PARSE;
        };
        println!("{input}: serde_json reads it into structs in {structs:.1} µs, the library takes {:.2} times as long", line.library / structs);
        all && (text.len() < 100_000 || line.library <= MOST_OF_STRUCTS * structs)
    })
}

/// The microseconds that serde_json takes to read a table's text into structs; none for a text that has more to be passed over
fn structs(text: &[u8], runs: usize) -> Option<f64> {
    if text.len() > 500_000 { return None; }
    let mut work: Work = Box::new(|| {
        let document: Document = serde_json::from_slice(black_box(text)).unwrap();
        black_box(&document).version
    });
    let turns = turns(&mut work);
    Some(median(&mut (0..runs).map(|_| timed(turns, &mut work)).collect::<Vec<f64>>()))
}

#[derive(Deserialize)]
#[expect(dead_code, reason = "read to be timed")]
struct Document { version: u64, sources: Vec<Source>, segments: Vec<Segment> }

#[derive(Deserialize)]
#[expect(dead_code, reason = "read to be timed")]
struct Source { name: String, size: u64, frames: u64, fps: (u64, u64), creation_time: Option<String>, clock: Option<Clock>, zcam_imu_origin_us: Option<u64> }

#[derive(Deserialize)]
#[expect(dead_code, reason = "read to be timed")]
struct Clock { name: String, rate: (u64, u64), modulus: Option<u64> }

#[derive(Deserialize)]
#[expect(dead_code, reason = "read to be timed")]
struct Segment {
    source: u64,
    src_first_frame: u64,
    frame_count: u64,
    out_first_frame: u64,
    src_start_us: i64,
    out_start_us: i64,
    duration_us: i64,
    src_capture_start_us: i64,
    out_capture_start_us: i64,
    capture_duration_us: i64,
    requested: Option<IgnoredAny>,
    start: String,
    entry: String,
    end: String,
    clock_shift: Option<i64>,
}
