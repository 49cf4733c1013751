//! How long each call takes beside the Rust, on the same input in one run.

mod editor;
mod field;
mod instructions;
mod lookups;
mod origins;
mod texts;

use std::hint::black_box;
use released::segment_table::{ SegmentTable, TrimSegment, VideoFrameTimes, VideoFrames, reach };
use field::recording;
use crate::{ case::{ Call, Case, Lent, Map, Row, Table }, generate::{ boxes::{ Form, boxed }, moovs::{ Edits, Head, Moov }, offsets::Offsets }, ours, plain, random::Random, reference, rust };

/// The microseconds that the turns of one measurement take together, at least
const LEAST: f64 = 20_000.0;
/// The lookup over records takes at most this many times as long as the lookup over words
const MOST_OF_RECORDS: f64 = 10.0;
/// The check of the most segments takes at most this many times as long as the Rust's: far less than where its first walk never said yes
const MOST_OF_CHECK: f64 = 1.3;

/// What is kept of a line of the table
struct Line {
    /// The call's name, or that of a row of calls
    call: &'static str,
    input: String,
    /// The median of the library's runs, in microseconds
    library: f64,
    /// The median of the runs' ratios, the library's time by the Rust's
    ratio: f64,
    accepted: bool,
}

/// What is measured: the median of so many runs, or the instructions of one turn
#[derive(Clone, Copy, PartialEq)]
enum Measure { Times(usize), Turns }

/// Measures all, or one call only, and prints a table; whether every input is accepted, and the check, the lookups over records, those of lists, the origins of lists, texts, and many cuts are fast enough
pub fn run(runs: usize, only: Option<Call>) -> bool {
    println!("| call | input | the Rust, µs | library, µs | library / Rust |\n|---|---|---:|---:|---:|");
    let lines = lines(Measure::Times(runs), only);
    let fast = || match only {
        None => check(&lines) & records(&lines) & lookups::fast(&lines, runs) & origins::fast(&lines, runs) & texts::fast(&lines, runs) & editor::shares(&lines, runs),
        Some(Call::Check) => check(&lines),
        Some(Call::ReadTable) => texts::fast(&lines, runs),
        Some(_) => true,
    };
    (!ours::LINKED || fast()) && all_accepted(&lines)
}

/// Prints the instructions of a turn of each line, which don't depend on what else runs
pub fn instructions(only: Option<Call>) -> bool { instructions::print(only) }

/// Makes one counted turn of each side of each line, for `instructions` to count; whether every input is accepted
pub fn counted_turns(only: Option<Call>) -> bool { all_accepted(&lines(Measure::Turns, only)) }

/// Measures every line, or those of one call. The largest inputs are left out where instructions are counted, which takes fifty times as long
fn lines(measure: Measure, only: Option<Call>) -> Vec<Line> {
    let of = |cases: Inputs| cases.into_iter().filter(|(_, case)| only.is_none_or(|only| only == case.call())).map(|(input, case)| of_case(input, &case, measure)).collect::<Vec<Line>>();
    let mut lines: Vec<Line> = [small, tables, lookups::lists, maps, origins::lists, texts::inputs, texts::names_and_strings].into_iter().flat_map(|inputs| of(inputs())).collect();
    if only.is_none() { lines.extend(editor::lines(measure)); }
    lines.extend([moovs, recordings].into_iter().flat_map(|inputs| of(inputs())));
    lines.extend(of(field::inputs(measure != Measure::Turns)));
    lines
}

fn all_accepted(lines: &[Line]) -> bool {
    for line in lines.iter().filter(|line| !line.accepted) { eprintln!("compare: {}, {}: not accepted", line.call, line.input); }
    lines.iter().all(|line| line.accepted)
}

/// Whether the check of the most segments is fast enough
fn check(lines: &[Line]) -> bool {
    let line = lines.iter().rfind(|line| line.call == Call::Check.name()).unwrap();
    if line.ratio > MOST_OF_CHECK { println!("\n{}: the check takes {:.2} times as long as the Rust's", line.input, line.ratio); }
    line.ratio <= MOST_OF_CHECK
}

/// Prints how the lookup over records stands beside that over words; whether it is fast enough
fn records(lines: &[Line]) -> bool {
    let of = |call: Call| lines.iter().filter(move |line| line.call == call.name());
    println!();
    of(Call::SegmentOfFrameRecords).zip(of(Call::SegmentOfFrame)).fold(true, |all, (records, words)| {
        let ratio = records.library / words.library;
        println!("{}: the lookup over records takes {ratio:.2} times as long as that over words", words.input);
        all && ratio <= MOST_OF_RECORDS
    })
}

/// Measures one case
fn of_case(input: String, case: &Case, measure: Measure) -> Line {
    let mut lent = ours::Lent::of(case);
    let rust = rust_side(case);
    let mut library = lent.as_mut().map_or_else(|| Box::new(|| 0u64) as Work, |lent| lent.ready(case));
    let accepted = reference::answer(case).number == 0 && library() == 0 && plain_agrees(case);
    measured(case.call().name(), input, accepted, rust, library, measure)
}

/// Measures one line, and prints it
fn measured<'a>(call: &'static str, input: String, accepted: bool, mut rust: Work<'a>, mut library: Work<'a>, measure: Measure) -> Line {
    let (mut times, mut ratio) = ([0.0; 2], 0.0);
    match measure {
        Measure::Turns => instructions::turns(call, &input, &mut rust, &mut library),
        Measure::Times(runs) => {
            (times, ratio) = medians(runs, &mut rust, &mut library);
            let said = if ours::LINKED { format!("{:.3} | {ratio:.2}", times[1]) } else { " | ".into() };
            println!("| `{call}` | {input} | {:.3} | {said} |", times[0]);
        }
    }
    Line { call, input, library: times[1], ratio, accepted }
}

/// The medians of both sides, and of the runs' ratios. The sides take turns at being first
fn medians<'a>(runs: usize, rust: &mut Work<'a>, library: &mut Work<'a>) -> ([f64; 2], f64) {
    let turns = turns(rust);
    let (mut theirs, mut ours, mut ratios) = (vec![], vec![], vec![]);
    for run in 0..runs {
        let first = timed(turns, if run % 2 == 0 { &mut *rust } else { &mut *library });
        let second = timed(turns, if run % 2 == 0 { &mut *library } else { &mut *rust });
        let (a, b) = if run % 2 == 0 { (first, second) } else { (second, first) };
        theirs.push(a);
        ours.push(b);
        ratios.push(b / a);
    }
    ([median(&mut theirs), median(&mut ours)], median(&mut ratios))
}

/// How many turns a measurement has
fn turns(work: &mut Work) -> u32 {
    let mut turns = 1;
    while turns < 1 << 24 && timed(turns, work) * (turns as f64) < LEAST { turns *= 2; }
    turns
}

/// Microseconds a turn
fn timed(turns: u32, work: &mut Work) -> f64 {
    let began = processor_time();
    for _ in 0..turns { black_box(work()); }
    (processor_time() - began) / turns as f64
}

/// How long this thread has had a processor, in microseconds: what others do on the machine isn't counted
fn processor_time() -> f64 {
    const OF_THIS_THREAD: i32 = 3;
    unsafe extern "C" { fn clock_gettime(clock: i32, time: *mut [i64; 2]) -> i32; }
    let mut time = [0i64; 2];
    assert_eq!(unsafe { clock_gettime(OF_THIS_THREAD, &mut time) }, 0);
    time[0] as f64 * 1e6 + time[1] as f64 / 1e3
}

fn median(times: &mut [f64]) -> f64 {
    times.sort_by(f64::total_cmp);
    times[times.len() / 2]
}

type Work<'a> = Box<dyn FnMut() -> u64 + 'a>;

/// The Rust's work for a case. The library checks a table before it looks anything up, so the Rust is made to, except for a list
/// of frames; maps, and the rows of a table, are plain Rust of our own
fn rust_side(case: &Case) -> Work<'_> {
    let parsed = |table: &Lent| SegmentTable::parse(rust::json(&table.table).unwrap().as_bytes()).unwrap();
    let checked = |table: &SegmentTable| assert!(reach::check(black_box(table)));
    match case {
        Case::IsUtcSecond { bytes } => Box::new(|| reach::is_utc_second(std::str::from_utf8(black_box(bytes)).unwrap()) as u64),
        Case::TicksToUs { ticks, scale } => Box::new(|| reach::ticks_to_us(black_box(*ticks), black_box(*scale)).unwrap() as u64),
        Case::Check { table } => { let t = parsed(table); Box::new(move || { checked(&t); 0 }) }
        Case::SegmentOfFrame { table, frame } | Case::SegmentOfFrameRecords { table, frame } => { let t = parsed(table); Box::new(move || { checked(&t); t.segment_of_frame(*frame) as u64 }) }
        Case::SegmentsOfFrames { table, frames, .. } => lookups::rust_side(parsed(table), frames),
        Case::SegmentOfTimeUs { table, time } => { let t = parsed(table); Box::new(move || { checked(&t); t.segment_of_time_us(*time) as u64 }) }
        Case::Continues { table, segment } => { let t = parsed(table); Box::new(move || { checked(&t); t.continues(*segment as usize) as u64 }) }
        Case::ValidateConstant { table, frames, num, den } => {
            let (t, video) = (parsed(table), VideoFrames::Constant { frames: *frames, rate: (*num, *den) });
            Box::new(move || { checked(&t); t.validate(black_box(&video)).is_ok() as u64 })
        }
        Case::ValidateTimes { table, scale, starts, end, nominal } => {
            let (t, video) = (parsed(table), VideoFrames::Times(VideoFrameTimes { timescale: *scale, starts: starts.clone(), end: *end, nominal: *nominal }));
            Box::new(move || { checked(&t); t.validate(black_box(&video)).is_ok() as u64 })
        }
        Case::CheckMcraw { table, timestamps, .. } => {
            let t = parsed(table);
            Box::new(move || { checked(&t); t.validate(&VideoFrames::Times(reach::mcraw_times(black_box(timestamps)).unwrap())).is_ok() as u64 })
        }
        Case::BoxSize { data, remaining } => Box::new(|| reach::box_size(black_box(data), black_box(*remaining)).unwrap().0),
        Case::Children { payload, at } => Box::new(move || reach::children(&black_box(payload)[*at as usize..]).next().unwrap().2),
        Case::Child { payload, kind } => Box::new(|| reach::child(black_box(payload), &kind.to_be_bytes()).unwrap().len() as u64),
        Case::FindBox { bytes, from, to, kind, text_types } => Box::new(|| reach::find_box(black_box(bytes), *from, *to, &kind.to_be_bytes(), *text_types).unwrap().unwrap().0),
        Case::TableText { file } => Box::new(|| reach::table_places(black_box(file))[0].0),
        Case::VideoFrameTimesOfMoov { moov, .. } => Box::new(|| reach::video_frame_times_of_moov(black_box(moov)).unwrap().starts.len() as u64),
        Case::McrawTimes { timestamps, .. } => Box::new(|| reach::mcraw_times(black_box(timestamps)).unwrap().starts.len() as u64),
        Case::RowsOfTable { table, .. } => {
            let (t, mut out) = (parsed(table), Vec::new());
            Box::new(move || { checked(&t); out.clear(); out.extend(t.segments.iter().map(row)); black_box(&out).len() as u64 })
        }
        Case::ValidateNoVideo { .. } => unreachable!("it is never accepted"),
        Case::Cut { .. } | Case::Join { .. } | Case::Merge { .. } | Case::Origin { .. } | Case::Origins { .. } => plain_side(case),
        Case::ReadTable { text, .. } | Case::SourceNames { text, .. } => Box::new(|| SegmentTable::parse(black_box(text)).is_ok() as u64),
        Case::JsonString { text, .. } => Box::new(|| serde_json::from_slice::<String>(black_box(text)).unwrap().len() as u64),
        Case::Cuts { .. } => unreachable!("many cuts are timed beside single ones, in editor.rs"),
    }
}

fn row(segment: &TrimSegment) -> Row {
    Row {
        source: segment.source as u64,
        source_first: segment.src_first_frame,
        count: segment.frame_count,
        out_first: segment.out_first_frame,
        flag: segment.clock_shift.is_some() as u64,
        shift: segment.clock_shift.unwrap_or(0),
    }
}

/// The plain Rust's work for a map
fn plain_side(case: &Case) -> Work<'_> {
    let mut out = Vec::new();
    match case {
        Case::Cut { map, a, b, .. } => { let rows = map.rows(); Box::new(move || plain::cut(black_box(&rows), *a, *b, black_box(&mut out)).unwrap() as u64) }
        Case::Join { first, second, .. } => {
            let (first, second) = (first.rows(), second.rows());
            Box::new(move || plain::join(black_box(&first), black_box(&second), black_box(&mut out)).unwrap() as u64)
        }
        Case::Merge { map, .. } => { let rows = map.rows(); Box::new(move || plain::merge(black_box(&rows), black_box(&mut out)).unwrap() as u64) }
        Case::Origin { map, frame } => { let rows = map.rows(); Box::new(move || plain::origin(black_box(&rows), *frame).unwrap().1) }
        Case::Origins { map, frames, .. } => origins::plain_side(map, frames),
        _ => unreachable!(),
    }
}

/// Whether the plain Rust of a map answers what the rules say
fn plain_agrees(case: &Case) -> bool {
    let mut out = Vec::new();
    let done = match case {
        Case::Cut { map, a, b, .. } => plain::cut(&map.rows(), *a, *b, &mut out),
        Case::Join { first, second, .. } => plain::join(&first.rows(), &second.rows(), &mut out),
        Case::Merge { map, .. } => plain::merge(&map.rows(), &mut out),
        Case::Origins { map, frames, .. } => return origins::plain_agrees(map, frames, &reference::answer(case)),
        _ => return true,
    };
    let answer = reference::answer(case);
    done.is_ok() && out == Map { words: answer.words, shifts: answer.longs }.rows()
}

type Inputs = Vec<(String, Case)>;

/// Calls without a table
fn small() -> Inputs {
    let code = reference::boxes::code;
    let many = boxed(Form::Short, b"free", &[0; 8]).repeat(1000);
    let last = [&many[..], &boxed(Form::Short, b"last", &[1])].concat();
    let udta = boxed(Form::Short, b"udta", &[&many[..], &boxed(Form::Short, b"MTRM", b"{}")].concat());
    let file = boxed(Form::Short, b"moov", &udta);
    let to = last.len() as u64;
    vec![
        ("a good time".into(), Case::IsUtcSecond { bytes: b"2024-11-17T13:12:46Z".to_vec() }),
        ("1001 at 30000".into(), Case::TicksToUs { ticks: 1001, scale: 30000 }),
        ("-2^62 at 4,294,967,295".into(), Case::TicksToUs { ticks: -(1 << 62), scale: 4_294_967_295 }),
        ("8 bytes".into(), Case::BoxSize { data: boxed(Form::Short, b"free", &[]), remaining: 8 }),
        ("the last of 1,001 boxes".into(), Case::Children { payload: last.clone(), at: many.len() as u64 }),
        ("the last of 1,001 boxes".into(), Case::Child { payload: last.clone(), kind: code(b"last") }),
        ("the last of 1,001 boxes".into(), Case::FindBox { bytes: last, from: 0, to, kind: code(b"last"), text_types: true }),
        ("after 1,000 boxes of udta".into(), Case::TableText { file }),
    ]
}

/// A table of `n` segments of `each` frames at 25/1, from three sources without clocks
fn table(n: u64, each: u64) -> Table { table_of_sources(3, n, each) }

/// The same from so many sources, each of which has a size and an origin
fn table_of_sources(sources: u64, n: u64, each: u64) -> Table {
    let us = |frame: u64| (frame * 40_000) as i64;
    Table {
        sources: (0..sources).flat_map(|k| [n * each, 25, 1, 0, 0, 0, 0, 0, 0, 0, 1 << 32, 1, k]).collect(),
        segments: (0..n).flat_map(|k| [k % sources, k, each, k * each, 0]).collect(),
        times: (0..n).flat_map(|k| [us(k), us(k * each), us(each), us(k), us(k * each), us(each), 0]).collect(),
        ..Table::default()
    }
}

/// So many segments, in words
fn segments(n: u64) -> String { if n == 1 { "1 segment".into() } else { format!("{n} segments") } }

fn tables() -> Inputs {
    let mut inputs = Inputs::new();
    for sources in [1, 64, 256] {
        let table = Lent::new(table_of_sources(sources, 512, 10));
        let input = format!("{sources} source{}, 512 segments", if sources == 1 { "" } else { "s" });
        inputs.push((input.clone(), Case::ValidateConstant { table: table.clone(), frames: 5120, num: 25, den: 1 }));
        inputs.push((input, Case::Check { table }));
    }
    for n in [1, 32, 512] {
        let table = Lent::new(table(n, 10));
        let (frames, room) = (n * 10, [n as usize * 5, n as usize]);
        let starts: Vec<i64> = (0..frames as i64).map(|k| k * 3600).collect();
        let all = [
            Case::Check { table: table.clone() },
            Case::SegmentOfFrame { table: table.clone(), frame: frames * 2 / 3 },
            Case::SegmentOfFrameRecords { table: table.clone(), frame: frames * 2 / 3 },
            Case::SegmentOfTimeUs { table: table.clone(), time: frames as i64 * 26_000 },
            Case::Continues { table: table.clone(), segment: n / 2 },
            Case::RowsOfTable { table: table.clone(), room },
            Case::ValidateConstant { table: table.clone(), frames, num: 25, den: 1 },
            Case::ValidateTimes { table, scale: 90000, starts, end: frames as i64 * 3600, nominal: 3600 },
        ];
        inputs.extend(all.map(|case| (segments(n), case)));
    }
    inputs
}

/// A map of `n` rows of 10 frames, of which every second continues the one before
fn map(n: u64) -> Map {
    Map { words: (0..n).flat_map(|k| [k / 2 % 3, k * 10, 10, k * 10, 0]).collect(), shifts: vec![0; n as usize] }
}

fn maps() -> Inputs {
    let mut inputs = Inputs::new();
    for n in [10, 1000] {
        let (whole, half) = (map(n), map(n / 2));
        let room = [n as usize * 5, n as usize];
        let all = [
            (format!("{n} rows, the last tenth"), Case::Cut { map: whole.clone(), a: n * 9 + 3, b: n * 10 - 2, room }),
            (format!("{n} rows, all but two frames"), Case::Cut { map: whole.clone(), a: 1, b: n * 10 - 1, room }),
            (format!("{} and {} rows", n / 2, n / 2), Case::Join { first: half.clone(), second: half, room }),
            (format!("{n} rows"), Case::Merge { map: whole.clone(), room }),
            (format!("{n} rows"), Case::Origin { map: whole, frame: n * 9 }),
        ];
        inputs.extend(all);
    }
    inputs
}

/// A moov of frames that last 512 ticks; where they have offsets, an edit starts at the first one's
fn moov(frames: u32, offsets: Option<Vec<(u32, u32)>>) -> Case {
    let elst = offsets.as_ref().map(|list| Edits { version: 0, list: vec![(0, list[0].1 as i64, 0x10000)] });
    lasting(vec![(frames, 512)], offsets, elst)
}

/// A moov of frames that last so long, with these offsets, and as many bytes again as files have for the frames' sizes
fn lasting(stts: Vec<(u32, u32)>, offsets: Option<Vec<(u32, u32)>>, elst: Option<Edits>) -> Case {
    let head = |scale| Head { version: 0, scale };
    let frames: u32 = stts.iter().map(|entry| entry.0).sum();
    let ctts = offsets.map(|list| Offsets { version: 0, list });
    let plan = Moov { movie: head(1000), media: head(12800), handler: *b"vide", stts, ctts, elst };
    let moov = plan.in_order(&boxed(Form::Short, b"free", &vec![0; frames as usize * 4]));
    Case::VideoFrameTimesOfMoov { moov, standard: false, room: [frames as usize; 3] }
}

/// A moov in the crate's mode, and in the standard's, in which its times are the same: no offset has its top bit
fn in_both_modes(input: String, case: Case) -> [(String, Case); 2] {
    let mut by_standard = case.clone();
    if let Case::VideoFrameTimesOfMoov { standard, .. } = &mut by_standard { *standard = true; }
    [(input.clone(), case), (format!("{input}, by the standard"), by_standard)]
}

fn moovs() -> Inputs {
    let mut inputs = Inputs::new();
    for frames in [100, 10_000, 1_000_000] {
        // Each P is decoded before the two B that it is shown after
        let reordered = (0..frames).map(|k| (1, match k { 0 => 512, k if k % 3 == 1 => 3 * 512, _ => 0 })).collect();
        inputs.push((format!("{frames} frames, I"), moov(frames, None)));
        inputs.push((format!("{frames} frames, IPP"), moov(frames, Some(vec![(frames, 1024)]))));
        inputs.extend(in_both_modes(format!("{frames} frames, IBBP"), moov(frames, Some(reordered))));
    }
    inputs
}

/// Recordings at about 25 frames a second, and tables of up to 32 segments for them
fn recordings() -> Inputs {
    let mut inputs = Inputs::new();
    let mut r = Random::new(4);
    for n in [100usize, 10_000, 1_000_000] {
        let timestamps = recording(n, || 40_000_000 + r.below(2000));
        inputs.push((format!("{n} timestamps"), Case::McrawTimes { timestamps: timestamps.clone(), room: [n; 2] }));
        let table = Lent::new(table_of(&timestamps, 32));
        inputs.push((format!("{n} timestamps, 32 segments"), Case::CheckMcraw { table, timestamps, room: [n; 2] }));
    }
    // As far apart as can be: nothing that cameras write
    for n in [10_000usize, 1_000_000] {
        let timestamps = recording(n, || r.below((1 << 62) / n as u64));
        inputs.push((format!("{n} timestamps, intervals of any length"), Case::McrawTimes { timestamps, room: [n; 2] }));
    }
    inputs
}

/// A table of `segments` segments that fits a recording
fn table_of(timestamps: &[i64], segments: usize) -> Table {
    let n = timestamps.len();
    let video = reference::mcraw::times(timestamps, &[n, n]).unwrap();
    let us = |ticks: i64| reference::numbers::microseconds(ticks as i128, video.scale).unwrap();
    let firsts: Vec<usize> = (0..segments).map(|k| k * n / segments).collect();
    let mut table = Table { sources: vec![n as u64, 25, 1, 0, 0, 0, 0, 0, 0, 0, 0, 0, 0], ..Table::default() };
    for (k, first) in firsts.iter().enumerate() {
        let next = firsts.get(k + 1).copied();
        let start = us(video.starts[*first]);
        let end = next.map_or(us(video.end), |next| us(video.starts[next]));
        table.segments.extend([0, *first as u64, (next.unwrap_or(n) - first) as u64, *first as u64, 0]);
        table.times.extend([start, start, end - start, start, start, end - start, 0]);
    }
    table
}
