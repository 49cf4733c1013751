//! Tables: good ones, each refusal alone and in pairs, random ones near validity; and the calls that check first.

use std::rc::Rc;
use super::{ Emit, lists, numbers, room };
use crate::{ case::{ Call, Case, Lent, SOURCE_WORDS, Table }, random::Random };

/// A run of frames in the output: what the other words of a segment are made around
pub struct Run {
    pub count: u64,
    pub start: i64,
    pub duration: i64,
}

/// Runs whose times and frames chain: mostly short, some huge, some without duration
fn runs(r: &mut Random) -> Vec<Run> {
    let n = match r.below(600) { 0 => r.range(500, 512), 1..=10 => r.range(7, 40), _ => r.range(1, 5) };
    let huge = n < 10 && r.one_in(6);
    let most = if huge { u64::MAX / n } else { 40 };
    let longest = if huge { i64::MAX / (n as i64 + 1) } else { 2_000_000 };
    let mut start = if r.one_in(3) { 0 } else { r.below(longest as u64) as i64 };
    (0..n).map(|_| {
        let count = if huge && r.one_in(2) { most } else { r.range(1, most) };
        let duration = if r.one_in(5) { 0 } else { r.below(longest as u64) as i64 };
        let run = Run { count, start, duration };
        start += duration;
        run
    }).collect()
}

/// A table that is accepted
pub fn good(r: &mut Random) -> Table { let runs = runs(r); of_runs(r, &runs) }

/// An accepted table whose segments have the output frames and times of the runs
pub fn of_runs(r: &mut Random, runs: &[Run]) -> Table {
    let mut table = Table { log: r.one_in(4), ..Table::default() };
    let longest = runs.iter().map(|run| run.count).max().unwrap_or(1);
    let sources = match r.below(400) { 0 => r.range(250, 256), 1..=5 => r.range(4, 20), _ => r.range(1, 3) };
    for _ in 0..sources { push_source(r, &mut table, longest); }
    let mut capture = if r.one_in(2) { 0 } else { r.below(1 << 40) as i64 };
    let mut out_first = 0;
    let (mut source, mut next) = (0, 0);
    for run in runs {
        let continued = r.one_in(2) && table.sources[source * SOURCE_WORDS].checked_sub(next).is_some_and(|left| left >= run.count);
        if !continued {
            source = r.size(sources as usize);
            next = r.below((table.sources[source * SOURCE_WORDS] - run.count).saturating_add(1));
        }
        push_segment(r, &mut table, [source as u64, next, run.count, out_first]);
        let capture_duration = if r.one_in(5) { 0 } else { r.below(1 << 40) as i64 };
        let free = |r: &mut Random, taken: i64| { let least = r.below(1 << 40) as i64; if r.one_in(8) { i64::MAX - taken } else { least.min(i64::MAX - taken) } };
        let (src, src_capture) = (free(r, run.duration), free(r, capture_duration));
        let at = table.times.len() - 7;
        table.times[at..at + 6].copy_from_slice(&[src, run.start, run.duration, src_capture, capture, capture_duration]);
        capture += capture_duration;
        out_first = out_first.wrapping_add(run.count);
        next += run.count;
    }
    table
}

/// A source that holds `longest` frames at least; words of absent things are any
fn push_source(r: &mut Random, table: &mut Table, longest: u64) {
    let frames = match r.below(8) { 0 => u64::MAX, 1 => longest, _ => longest.saturating_add(r.below(100)) };
    let (num, den) = r.pick(&[(25, 1), (30000, 1001), (24, 1), (1, 1), (u64::MAX, 1), (60000, 1001), (50, 1), (1, u64::MAX), (4_294_967_295, 4_294_967_295), (4_294_967_296, 1)]);
    let kind = if table.log { r.range(1, 2) } else { r.below(3) };
    let modulus = match r.below(4) { 0 => 1, 1 => u64::MAX, 2 => 1 << 32, _ => r.range(1, 100) };
    let mut words = [frames, num, den, r.below(2), r.word(), r.word(), kind, r.range(1, 1 << 32), r.range(1, 3), if kind == 2 { modulus } else { r.word() }, r.word(), r.below(2), r.word()];
    if kind == 0 { words[7] = r.word(); words[8] = r.word(); }
    if words[3] == 1 {
        table.text.extend(vec![b'#'; r.size(3)]);
        let time = numbers::good_time(r);
        (words[4], words[5]) = (table.text.len() as u64, 20);
        table.text.extend(time);
    }
    table.sources.extend(words);
}

/// The five words of a segment, with the shift that its source's clock asks for
fn push_segment(r: &mut Random, table: &mut Table, words: [u64; 4]) {
    let source = words[0] as usize * SOURCE_WORDS;
    let (kind, modulus) = (table.sources[source + 6], table.sources[source + 9]);
    table.segments.extend(words);
    table.segments.push((kind != 0) as u64);
    let shift = match kind {
        2 => { let greatest = (modulus - 1).min(i64::MAX as u64); r.pick(&[0, greatest / 2, greatest]) as i64 }
        _ if r.one_in(2) => r.below(2) as i64,
        _ => r.long(),
    };
    table.times.extend([0, 0, 0, 0, 0, 0, shift]);
}

/// The table, damaged so that `number` refuses it, unless another damage comes first
pub fn refused(r: &mut Random, t: &mut Table, number: u64) {
    let (sources, segments) = (t.sources.len() / SOURCE_WORDS, t.segments.len() / 5);
    if sources == 0 || segments == 0 || t.times.len() < segments * 7 { return; }
    let (s, g) = (r.size(sources) * SOURCE_WORDS, r.size(segments));
    let (w, m) = (g * 5, g * 7);
    match number {
        1 => malformed(r, t),
        2 => too_many(r, t),
        3 => t.sources.clear(),
        4 => t.sources[s + r.size(3)] = 0,
        5 => {
            let text = loop { let text = numbers::utc_text(r); if !crate::reference::numbers::is_utc_second(&text) { break text; } };
            t.sources[s + 3..s + 6].copy_from_slice(&[1, t.text.len() as u64, text.len() as u64]);
            t.text.extend(text);
        }
        6 => {
            if t.sources[s + 6] == 0 { t.sources[s + 6] = 1; }
            if r.one_in(2) { t.sources[s + 6] = 2; }
            let fields = if t.sources[s + 6] == 2 { 3 } else { 2 };
            t.sources[s + 7 + r.size(fields)] = 0;
        }
        7 => { t.log = true; t.sources[s + 6] = 0; }
        8 => { t.segments.clear(); t.times.clear(); }
        9 => t.segments[w] = match r.below(3) { 0 => sources as u64, 1 => u64::MAX, _ => sources as u64 + r.below(1 << 40) },
        10 => t.segments[w + 2] = 0,
        11 => { let field = r.pick(&[1, 3]); t.segments[w + field] = u64::MAX - r.below(t.segments[w + 2].max(1)); }
        12 => past_the_source(r, t, w),
        13 => t.times[m + r.size(6)] = r.pick(&[-1, -1, i64::MIN, -1000]),
        14 => { let field = r.pick(&[0, 3, 1, 4]); overflow(r, t, m, field); }
        15 => t.segments[w + 3] = if r.one_in(2) { t.segments[w + 3].wrapping_add(1) } else { t.segments[w + 3].wrapping_sub(1) },
        16 => { let field = r.pick(&[1, 4]); t.times[m + field] = t.times[m + field].wrapping_add(r.pick(&[1, -1, 7])); }
        _ => wrong_shift(r, t, w, m),
    }
}

/// A slice length, a flag, a kind, or a range of the text that can't be
fn malformed(r: &mut Random, t: &mut Table) {
    let (s, w) = (r.size(t.sources.len() / SOURCE_WORDS) * SOURCE_WORDS, r.size(t.segments.len() / 5) * 5);
    match r.below(13) {
        0 => t.sources.truncate(t.sources.len() - 1 - r.size(SOURCE_WORDS - 1)),
        1 => t.sources.extend(vec![1; 1 + r.size(SOURCE_WORDS - 1)]),
        2 => t.segments.truncate(t.segments.len() - 1 - r.size(4)),
        3 => t.times.truncate(t.times.len() - 1 - r.size(6)),
        4 => t.segments.extend([0, 0, 1, 0, 0]),
        5 => t.times.extend([0; 7]),
        6 => t.sources[s + 3] = r.pick(&[2, 3, u64::MAX, 256]),
        7 => t.sources[s + 6] = r.pick(&[3, 4, u64::MAX, 1 << 32]),
        11 => t.sources[s + 11] = r.pick(&[2, 3, u64::MAX, 256]),
        8 => t.segments[w + 4] = r.pick(&[2, 3, u64::MAX, 1 << 32]),
        9 => t.sources[s + 3..s + 6].copy_from_slice(&[1, t.text.len() as u64, 1]),
        10 => { let from = u64::MAX - r.below(20); t.sources[s + 3..s + 6].copy_from_slice(&[1, from, 20]) }
        _ => { let from = r.below(t.text.len() as u64 + 2); t.sources[s + 3..s + 6].copy_from_slice(&[1, from, t.text.len() as u64 + 1 - from.min(t.text.len() as u64)]) }
    }
}

/// Over 256 sources or 512 segments
fn too_many(r: &mut Random, t: &mut Table) {
    if r.one_in(2) {
        let source: Vec<u64> = t.sources[..SOURCE_WORDS].to_vec();
        while t.sources.len() <= 256 * SOURCE_WORDS { t.sources.extend(&source); }
    } else {
        let (words, times) = (t.segments[..5].to_vec(), t.times[..7].to_vec());
        while t.segments.len() <= 2560 { t.segments.extend(&words); t.times.extend(&times); }
    }
}

/// One frame past the source's, by the source or by the segment
fn past_the_source(r: &mut Random, t: &mut Table, w: usize) {
    let end = t.segments[w + 1].wrapping_add(t.segments[w + 2]);
    let source = (t.segments[w] as usize).wrapping_mul(SOURCE_WORDS);
    match t.sources.get_mut(source) {
        Some(frames) if end > 1 && r.one_in(2) => *frames = end - 1,
        Some(frames) => t.segments[w + 1] = (*frames - t.segments[w + 2].min(*frames)).saturating_add(1),
        None => {}
    }
}

/// A start so late that its end passes 2^63 - 1; the segments around it move along where that can be
fn overflow(r: &mut Random, t: &mut Table, m: usize, field: usize) {
    let duration = m + if field < 2 { 2 } else { 5 };
    if t.times[duration] <= 0 { t.times[duration] = 1 + r.below(5) as i64; }
    t.times[m + field] = i64::MAX - r.below(t.times[duration] as u64) as i64;
    if r.one_in(2) && m >= 7 {
        // The segment before ends there, so that 16 doesn't come first
        let before = m - 7;
        let (start, lasts) = if field == 1 { (before + 1, before + 2) } else { (before + 4, before + 5) };
        t.times[lasts] = t.times[m + field].saturating_sub(t.times[start].max(0));
    }
}

/// A shift without clock, a clock without shift, or a shift outside 0..modulus
fn wrong_shift(r: &mut Random, t: &mut Table, w: usize, m: usize) {
    let source = (t.segments[w] as usize).wrapping_mul(SOURCE_WORDS);
    let modulus = match t.sources.get(source..source.wrapping_add(SOURCE_WORDS)) { Some(words) if words[6] == 2 => words[9], _ => 0 };
    if modulus != 0 && t.segments[w + 4] == 1 && !r.one_in(4) {
        t.times[m + 6] = if modulus <= i64::MAX as u64 && r.one_in(2) { modulus as i64 } else { r.pick(&[-1, i64::MIN]) };
    } else {
        t.segments[w + 4] = 1 - t.segments[w + 4].min(1);
    }
}

/// A small table of words from a handful: some are accepted, most are refused somewhere
fn near_valid(r: &mut Random) -> Table {
    let mut t = Table { log: r.one_in(8), ..Table::default() };
    for _ in 0..r.range(0, 2) {
        let word = |r: &mut Random| if r.one_in(12) { 0 } else { r.range(1, 6) };
        let kinds = if r.one_in(8) { 3 } else { 2 };
        let source = [word(r), word(r), word(r), 0, r.below(3), r.below(3), r.below(3), word(r), word(r), word(r), word(r), r.below(kinds), word(r)];
        t.sources.extend(source);
    }
    let mut frame = 0;
    for _ in 0..r.range(0, 3) {
        let count = if r.one_in(12) { 0 } else { r.range(1, 3) };
        let first = if r.one_in(12) { r.below(6) } else { frame };
        let source = if r.one_in(8) { r.below(3) } else { r.below(2) };
        t.segments.extend([source, r.below(4), count, first, r.below(2)]);
        let time = |r: &mut Random| if r.one_in(30) { -1 } else { r.below(2) as i64 };
        t.times.extend([time(r), time(r), time(r), time(r), time(r), time(r), r.below(8) as i64 - 1]);
        frame += count;
    }
    t
}

/// A good table with a few words changed to any
fn with_any_words(r: &mut Random) -> Table {
    let mut t = good(r);
    for _ in 0..r.range(1, 3) {
        match r.below(3) {
            0 => { let at = r.size(t.sources.len()); t.sources[at] = r.word(); }
            1 => { let at = r.size(t.segments.len()); t.segments[at] = r.word(); }
            _ => { let at = r.size(t.times.len()); t.times[at] = r.long(); }
        }
    }
    t
}

/// Any of these tables; one in `bad` isn't accepted on purpose
fn table(r: &mut Random, bad: u64) -> Table {
    if !r.one_in(bad) { return good(r); }
    match r.below(8) {
        0 | 1 => near_valid(r),
        2 => with_any_words(r),
        n => {
            let mut t = good(r);
            let number = r.range(1, 17);
            refused(r, &mut t, number);
            if n < 5 { let second = r.range(1, 17); refused(r, &mut t, second); }
            t
        }
    }
}

/// Around each boundary of the table, and at the edges
pub fn cases(call: Call, r: &mut Random, emit: Emit) {
    if call == Call::Check { let bad = r.pick(&[1, 1, 1, 2]); return emit(Case::Check { table: Lent::new(table(r, bad)) }); }
    let lent = Lent::new(table(r, 6));
    if call == Call::ValidateNoVideo { return emit(Case::ValidateNoVideo { table: lent }); }
    let segments = lent.table.segments.len() / 5;
    for _ in 0..6 {
        let k = r.size(segments.max(1));
        asked(call, r, &lent, k, emit);
    }
}

/// One question to a table, about its segment k
fn asked(call: Call, r: &mut Random, lent: &Rc<Lent>, k: usize, emit: Emit) {
    if call == Call::SegmentOfFrameRecords && !lent.table.has_records() { return; }
    if call == Call::SegmentsOfFrames { return lists::asked(r, lent, k, emit); }
    let (words, times) = (lent.table.segments.get(k * 5..k * 5 + 5), lent.table.times.get(k * 7..k * 7 + 7));
    let table = lent.clone();
    let segments = lent.table.segments.len() / 5;
    let end = words.map_or(0, |w| w[3].wrapping_add(w[2]));
    let frame = match r.below(8) { 0 => r.word(), 1 => 0, 2 => end.wrapping_sub(1), 3 => end.wrapping_add(1), 4 => words.map_or(0, |w| w[3]), _ => end };
    let ends = times.map_or(0, |t| t[1].wrapping_add(t[2]));
    let time = match r.below(8) { 0 => r.long(), 1 => -5, 2 => ends.wrapping_sub(1), 3 => ends.wrapping_add(1), 4 => times.map_or(0, |t| t[1]), _ => ends };
    let segment = match r.below(12) { 0 => r.word(), 1 => segments as u64, 2 => 0, _ => k as u64 };
    emit(match call {
        Call::SegmentOfFrame => Case::SegmentOfFrame { table, frame },
        Call::SegmentOfFrameRecords => Case::SegmentOfFrameRecords { table, frame },
        Call::SegmentOfTimeUs => Case::SegmentOfTimeUs { table, time },
        Call::Continues => Case::Continues { table, segment },
        _ => Case::RowsOfTable { table, room: [room(r, segments * 5), room(r, segments)] },
    })
}

/// A table of a source too many, once
pub fn too_many_sources(call: Call, emit: Emit) {
    if matches!(call, Call::Check | Call::SegmentOfFrame | Call::SegmentOfFrameRecords | Call::Continues | Call::ValidateNoVideo | Call::SegmentsOfFrames) {
        once(call, &mut Random::new(3), with_sources(257), emit);
    }
}

/// Every pair of refusals, many times; the limits; every question to table T (RULES 3.6), or the lists of frames
pub fn fixed(call: Call, emit: Emit) {
    let mut r = Random::new(1);
    for (first, second) in (1..=17).flat_map(|a| (0..=17).map(move |b| (a, b))) {
        for _ in 0..if call == Call::Check { 60 } else { 2 } {
            let mut t = good(&mut r);
            refused(&mut r, &mut t, first);
            if second > 0 { refused(&mut r, &mut t, second); }
            once(call, &mut r, t, emit);
        }
    }
    for n in [64, 65, 255, 256, 257, 258] { once(call, &mut r, with_sources(n), emit); }
    for n in [511, 512, 513, 1024] { once(call, &mut r, with_segments(n), emit); }
    once(call, &mut r, Table::default(), emit);
    if call == Call::SegmentsOfFrames { lists::fixed(emit); } else { every_question(call, emit); }
}

fn once(call: Call, r: &mut Random, t: Table, emit: Emit) {
    let table = Lent::new(t);
    match call {
        Call::Check => emit(Case::Check { table }),
        Call::ValidateNoVideo => emit(Case::ValidateNoVideo { table }),
        _ => asked(call, r, &table, 0, emit),
    }
}

/// Table T of RULES 3.6
pub fn t() -> Table {
    let source = |frames| [frames, 25, 1, 0, 0, 0, 0, 0, 0, 0, 0, 0, 0];
    Table {
        sources: [source(100), source(50)].concat(),
        segments: vec![0, 10, 30, 0, 0, 1, 5, 20, 30, 0],
        times: vec![0, 0, 1_200_000, 0, 0, 0, 0, 0, 1_200_000, 800_000, 0, 0, 0, 0],
        ..Table::default()
    }
}

fn with_sources(n: usize) -> Table {
    let mut table = t();
    table.sources = table.sources[..SOURCE_WORDS].repeat(n);
    table
}

/// Segments of one frame each
pub fn with_segments(n: usize) -> Table {
    Table {
        segments: (0..n as u64).flat_map(|k| [0, k % 100, 1, k, 0]).collect(),
        times: (0..n as i64).flat_map(|k| [0, k, 1, 0, 0, 0, 0]).collect(),
        ..t()
    }
}

/// Every frame, time, segment and room of table T and of one of 512 segments
fn every_question(call: Call, emit: Emit) {
    for table in [t(), with_segments(512)].map(Lent::new) {
        let n = table.table.segments.len() / 5;
        for k in 0..=n as u64 + 60 {
            match call {
                Call::SegmentOfFrame => emit(Case::SegmentOfFrame { table: table.clone(), frame: k }),
                Call::SegmentOfFrameRecords => emit(Case::SegmentOfFrameRecords { table: table.clone(), frame: k }),
                Call::SegmentOfTimeUs => {
                    for time in [k as i64 - 5, 1_200_000 + k as i64 - 30, 2_000_000 + k as i64 - 30] { emit(Case::SegmentOfTimeUs { table: table.clone(), time }); }
                }
                Call::Continues => emit(Case::Continues { table: table.clone(), segment: k }),
                Call::RowsOfTable if k < 6 => {
                    for words in 0..=n * 5 + 2 { emit(Case::RowsOfTable { table: table.clone(), room: [words, n - 2 + k as usize] }); }
                }
                _ => {}
            }
        }
    }
}
