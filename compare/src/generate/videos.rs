//! A table and the video that it is judged against.

use super::{ Emit, numbers, tables::{ self, Run } };
use crate::{ case::{ Case, Lent, Table }, random::Random, reference::{ GREATEST_SCALE, numbers::microseconds } };

/// Counts of a few segments, and their total
fn counts(r: &mut Random, most: u64) -> (Vec<u64>, u64) {
    let counts: Vec<u64> = (0..r.range(1, 5)).map(|_| r.range(1, most)).collect();
    let total = counts.iter().sum();
    (counts, total)
}

/// Runs that start at the times of their first frames and end about `end_us`; times that can't be had count as 0
fn runs(counts: &[u64], time: impl Fn(u64) -> Option<i64>, end_us: i64) -> Vec<Run> {
    let mut frame = 0;
    let mut starts: Vec<i64> = Vec::new();
    for count in counts {
        starts.push(time(frame).unwrap_or(0).max(*starts.last().unwrap_or(&0)));
        frame += count;
    }
    let ends = starts[1..].iter().copied().chain([end_us.max(starts[starts.len() - 1])]);
    counts.iter().zip(&starts).zip(ends).map(|((count, start), end)| Run { count: *count, start: *start, duration: end - start }).collect()
}

/// An end in µs for a video: exact, at the last that is near on either side, or one beyond it
fn end_us(r: &mut Random, scale: u64, end: i128, nominal: i128) -> i64 {
    let exact = microseconds(end.clamp(i64::MIN as i128, i64::MAX as i128), scale).unwrap_or(0) as i128;
    let reach = if scale == 0 { 0 } else { (2 * nominal * 1_000_000 + scale as i128).max(0) / (2 * scale as i128) };
    let off = match r.below(8) { 0 => 0, 1 => reach, 2 => -reach, 3 => reach + 1, 4 => -reach - 1, 5 => r.below(5) as i128 - 2, 6 => 2 - reach, _ => reach / 2 };
    (exact + off).clamp(0, i64::MAX as i128) as i64
}

/// The table, left as it is, or damaged by one refusal of its own or one start that is off
pub fn spoilt(r: &mut Random, mut table: Table) -> Table {
    match r.below(24) {
        0 => { let number = r.range(1, 17); tables::refused(r, &mut table, number) }
        1 | 2 => one_start_off(r, &mut table),
        _ => {}
    }
    table
}

/// One start off by one, its neighbours moved along so that the table is accepted still
fn one_start_off(r: &mut Random, table: &mut Table) {
    let k = r.size(table.times.len() / 7) * 7;
    let step = if r.one_in(2) { 1 } else { -1 };
    table.times[k + 1] += step;
    table.times[k + 2] -= step;
    if k >= 7 { table.times[k - 5] += step; }
}

pub fn constant(r: &mut Random, emit: Emit) {
    let (num, den) = match r.below(10) {
        0 => (numbers::scale(r), numbers::scale(r)),
        1 => (r.range(1, 4), GREATEST_SCALE - r.below(2)),
        2 => (r.range(1, 100), 0),
        3 => (0, r.below(3)),
        4 => { let over = GREATEST_SCALE + r.range(0, 2); if r.one_in(2) { (over, 1) } else { (1, over) } }
        _ => r.pick(&[(25, 1), (30000, 1001), (24, 1), (60000, 1001), (1, 1), (3, 1), (7, 2), (1_000_000, 33_333), (90000, 3003)]),
    };
    let most = match r.below(8) { 0 => u64::MAX / 5, 1 => 1 << 40, 2 => 1, _ => 60 };
    let (counts, total) = counts(r, most);
    let ends = end_us(r, num, total as i128 * den as i128, den as i128);
    let runs = runs(&counts, |k| microseconds(k as i128 * den as i128, num), ends);
    let made = tables::of_runs(r, &runs);
    let table = Lent::new(spoilt(r, made));
    let frames = match r.below(16) { 0 => total + 1, 1 => total - 1, 2 => r.word(), _ => total };
    emit(Case::ValidateConstant { table, frames, num, den });
}

/// Starts that ascend mostly; sometimes far out, negative, or in any order
fn starts(r: &mut Random, total: usize, scale: u64) -> Vec<i64> {
    let step = match r.below(6) { 0 => 1, 1 => 3, 2 => scale.clamp(1, 1 << 32), 3 => 1 << 40, _ => 1 + scale / 25 };
    let mut at = match r.below(8) { 0 => r.long(), 1 => -(r.below(100) as i64), 2 => r.below(1 << 40) as i64, _ => 0 };
    (0..total).map(|_| {
        let start = at;
        at = at.saturating_add(match r.below(80) { 0 | 1 => -5, 2 => 1 << 58, _ => r.below(step + 1) as i64 });
        start
    }).collect()
}

pub fn times(r: &mut Random, emit: Emit) {
    let scale = numbers::scale(r);
    let most = if r.one_in(40) { 2000 } else { 20 };
    let (counts, total) = counts(r, most);
    let starts = starts(r, total as usize, scale);
    let last = starts[starts.len() - 1];
    let nominal = match r.below(10) { 0 => r.long(), 1 => 0, 2 => -1, 3 => -(r.below(1000) as i64), 4 => 1, _ => 1 + (scale / 25) as i64 };
    let end = match r.below(8) { 0 => r.long(), 1 => last, _ => last.saturating_add(nominal) };
    let ends = end_us(r, scale, end as i128, nominal as i128);
    let runs = runs(&counts, |k| microseconds(starts[k as usize] as i128, scale), ends);
    let made = tables::of_runs(r, &runs);
    let table = Lent::new(spoilt(r, made));
    let starts = match r.below(24) { 0 => starts[1..].to_vec(), 1 => [&starts[..], &[last]].concat(), 2 => vec![], _ => starts };
    emit(Case::ValidateTimes { table, scale, starts, end, nominal });
}

/// A table of one segment whose times are those of a constant video
pub fn one_segment(frames: u64, start: i64, duration: i64) -> Table {
    let mut table = tables::t();
    table.sources[0] = frames.max(1);
    table.segments = vec![0, 0, frames, 0, 0];
    table.times = vec![0, start, duration, 0, 0, 0, 0];
    table
}

/// 30 frames at 30000/1001, with the ends of RULES 6.5 and around them
pub fn near_in_the_document(emit: Emit) {
    for end in (967_600..967_700).chain(1_034_300..1_034_400) {
        emit(Case::ValidateConstant { table: Lent::new(one_segment(30, 0, end)), frames: 30, num: 30000, den: 1001 });
    }
    for (num, den) in [(0, 0), (0, 1), (1, 0), (GREATEST_SCALE, GREATEST_SCALE), (GREATEST_SCALE + 1, 1), (1, GREATEST_SCALE + 1), (u64::MAX, u64::MAX)] {
        for frames in [0, 1, 2, u64::MAX] {
            for duration in [0, 1, 1_000_000, i64::MAX] {
                emit(Case::ValidateConstant { table: Lent::new(one_segment(frames, 0, duration)), frames, num, den });
            }
        }
    }
}
