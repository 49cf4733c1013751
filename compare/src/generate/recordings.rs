//! Recordings: their timestamps, and tables judged against them.

use super::{ Emit, room, tables::{ self, Run }, videos };
use crate::{ case::{ Case, Lent, SOURCE_WORDS, Table }, random::Random, reference::{ mcraw, numbers::microseconds } };

/// Timestamps that ascend mostly, with equal neighbours; sometimes far apart, sometimes falling once
fn timestamps(r: &mut Random) -> Vec<i64> {
    let n = match r.below(20) { 0 => 0, 1 | 2 => 1, 3 | 4 => 2, 5 => 3, 6 => r.size(300), _ => 2 + r.size(9) };
    let step = match r.below(8) { 0 => 1, 1 => 2, 2 => 1 << 62, 3 => 1 << 61, 4 => 4, _ => 40_000_000 };
    let mut at = match r.below(6) { 0 => i64::MIN + r.below(3) as i64, 1 => r.long(), 2 => i64::MAX - r.below(200) as i64, _ => r.below(1 << 50) as i64 };
    let mut list: Vec<i64> = (0..n).map(|_| {
        let stamp = at;
        at = at.saturating_add(if r.one_in(6) { 0 } else { r.below(step + 1) as i64 });
        stamp
    }).collect();
    match r.below(10) {
        0 if n > 1 => { let (a, b) = (r.size(n), r.size(n)); list.swap(a, b) }
        1 if n > 1 => { let at = r.size(n); list[at] = r.long() }
        2 if n > 1 => { let at = 1 + r.size(n - 1); list[at] = list[at - 1].saturating_sub(1) }
        _ => {}
    }
    list
}

pub fn times(r: &mut Random, emit: Emit) {
    let timestamps = timestamps(r);
    let n = timestamps.len();
    let room = [room(r, n), room(r, n)];
    emit(Case::McrawTimes { timestamps, room });
}

/// A table that fits a recording, or nearly
fn fitting(r: &mut Random, timestamps: &[i64]) -> Table {
    let n = timestamps.len();
    let Ok(video) = mcraw::times(timestamps, &[n, n]) else {
        let mut table = tables::good(r);
        if n == 1 { one_frame(r, &mut table); }
        return table;
    };
    let mut firsts: Vec<usize> = (0..r.size(4)).map(|_| r.size(n)).chain([0]).collect();
    firsts.sort();
    firsts.dedup();
    let start = |k: usize| microseconds(video.starts[k] as i128, video.scale).unwrap();
    let reach = (video.nominal as i128 * 1_000_000 / video.scale as i128) as i64;
    let off = r.pick(&[0, 0, 1, -1, reach, reach + 1, -reach, -reach - 1]);
    let end_us = microseconds(video.end as i128, video.scale).unwrap().saturating_add(off);
    let runs: Vec<Run> = firsts.iter().enumerate().map(|(k, first)| {
        let next = firsts.get(k + 1);
        let end = next.map_or(end_us, |next| start(*next)).max(start(*first));
        Run { count: (next.copied().unwrap_or(n) - first) as u64, start: start(*first), duration: end - start(*first) }
    }).collect();
    tables::of_runs(r, &runs)
}

/// Makes a table one of a single frame, which ends about where its source's fps has it
fn one_frame(r: &mut Random, table: &mut Table) {
    table.segments.truncate(5);
    table.times.truncate(7);
    if !r.one_in(8) { table.segments[2] = 1; }
    let source = table.segments[0] as usize * SOURCE_WORDS;
    let (num, den) = (table.sources[source + 1], table.sources[source + 2]);
    let end = microseconds(den as i128, num.max(1)).unwrap_or(0).saturating_mul(r.range(0, 3) as i64);
    table.times[..3].copy_from_slice(&[0, if r.one_in(8) { 1 } else { 0 }, (end + r.below(5) as i64 - 2).max(0)]);
}

pub fn judged(r: &mut Random, emit: Emit) {
    let timestamps = timestamps(r);
    let made = if r.one_in(16) { tables::good(r) } else { fitting(r, &timestamps) };
    let table = videos::spoilt(r, made);
    let n = timestamps.len();
    let room = [room(r, n), room(r, n)];
    emit(Case::CheckMcraw { table: Lent::new(table), timestamps, room });
}

/// Every recording of up to five timestamps of six values; that of RULES 9.3 in every room
pub fn fixed(emit: Emit) {
    const VALUES: [i64; 6] = [i64::MIN, -1, 0, 1, 10, i64::MAX];
    for n in 0..=5u32 {
        for k in 0..6usize.pow(n) {
            let timestamps: Vec<i64> = (0..n).map(|i| VALUES[k / 6usize.pow(i) % 6]).collect();
            emit(Case::McrawTimes { timestamps, room: [n as usize; 2] });
        }
    }
    for words in 0..6 {
        for room in 0..6 { emit(Case::McrawTimes { timestamps: vec![1000, 1010, 1025], room: [words, room] }); }
    }
}
