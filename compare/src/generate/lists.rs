//! Lists of frames, and room for their segments.

use std::rc::Rc;
use super::{ Emit, room, tables::{ good, refused, t, with_segments } };
use crate::{ case::{ Case, Lent, SOURCE_WORDS, Table }, random::Random };

/// One list of frames of a table
pub fn asked(r: &mut Random, lent: &Rc<Lent>, k: usize, emit: Emit) {
    let frames = frames(r, &lent.table.segments, k);
    let room = room(r, frames.len());
    emit(Case::SegmentsOfFrames { table: lent.clone(), frames, room });
}

/// Up to a few hundred frames of segments, or of the rows of a map: over all of them in either direction, one of them somewhere else, or in no order; by equal
/// steps; of segment k alone; from end to end of segments; any words
pub(super) fn frames(r: &mut Random, segments: &[u64], k: usize) -> Vec<u64> {
    let n = match r.below(24) { 0..=16 => 2 + r.size(14), 17..=20 => r.size(65), 21 => r.size(400), 22 => 1, _ => 0 };
    let ends: Vec<u64> = segments.chunks_exact(5).map(|w| w[3].wrapping_add(w[2])).collect();
    let total = ends.last().copied().unwrap_or(0);
    let (first, count) = segments.get(k * 5..k * 5 + 5).map_or((0, 0), |w| (w[3], w[2]));
    let from = r.below(total);
    let step = r.pick(&[1, 1, 2, count, total / n.max(1) as u64]);
    let kind = r.below(10);
    let mut list: Vec<u64> = (0..n as u64).map(|i| match kind {
        0..=4 => r.below(total.saturating_add(3)),
        5 => from.wrapping_add(step.wrapping_mul(i)),
        6 => from.wrapping_sub(step.wrapping_mul(i)),
        7 => first.wrapping_add(r.below(count)),
        8 => near(r, &ends),
        _ => r.word(),
    }).collect();
    if kind < 4 { list.sort(); }
    if kind == 2 { list.reverse(); }
    if kind == 3 && n > 0 { let at = r.size(n); list[at] = near(r, &ends); }
    list
}

/// The last frame before an end, that at it, or the next
fn near(r: &mut Random, ends: &[u64]) -> u64 {
    if ends.is_empty() { return r.word(); }
    r.pick(ends).wrapping_add(r.pick(&[u64::MAX, 0, 1]))
}

/// Every short list for small tables, for the longest and for one whose frames reach 2^64 - 1; every frame of two tables;
/// each refusal
pub fn fixed(emit: Emit) {
    for table in [t(), with_segments(1), with_segments(3), with_segments(512), greatest()].map(Lent::new) {
        let frames = around(&table.table.segments);
        for list in every_list(&frames) { in_rooms(&table, &list, emit); }
    }
    for table in [t(), with_segments(512)].map(Lent::new) { every_frame(&table, emit); }
    every_refusal(emit);
}

/// Table T with two segments that have as many frames as can be
fn greatest() -> Table {
    let mut table = t();
    (table.sources[0], table.sources[SOURCE_WORDS]) = (u64::MAX, u64::MAX);
    table.segments = vec![0, 0, 1 << 63, 0, 0, 1, 0, (1 << 63) - 1, 1 << 63, 0];
    table
}

/// The frames around the ends of the first, the middle and the last segment, the first frame and the greatest
pub(super) fn around(segments: &[u64]) -> Vec<u64> {
    let n = segments.len() / 5;
    let ends = [0, n / 2, n - 1].map(|k| segments[k * 5 + 3] + segments[k * 5 + 2]);
    let mut frames: Vec<u64> = ends.iter().flat_map(|end| [end - 1, *end, end.saturating_add(1)]).chain([0, u64::MAX]).collect();
    frames.sort();
    frames.dedup();
    frames
}

/// Every list of up to three of these frames: in both directions, and with equal ones
pub(super) fn every_list(frames: &[u64]) -> impl Iterator<Item = Vec<u64>> + '_ {
    let of = frames.len();
    let list = move |n: u32, k: usize| (0..n).map(|i| frames[k / of.pow(i) % of]).collect();
    (0..=3).flat_map(move |n| (0..of.pow(n)).map(move |k| list(n, k)))
}

/// A list with room one short, exact, and longer; the empty one with no room too
fn in_rooms(table: &Rc<Lent>, frames: &[u64], emit: Emit) {
    let n = frames.len();
    for room in n.saturating_sub(1)..=n + 2 { emit(Case::SegmentsOfFrames { table: table.clone(), frames: frames.to_vec(), room }); }
}

/// All frames of a table and some past it, ascending, descending and by great steps, each once, twice and ten times
fn every_frame(table: &Rc<Lent>, emit: Emit) {
    for frames in all_of(table.table.segments.len() as u64 / 5 + 61) { in_rooms(table, &frames, emit); }
}

/// The first `n` frames, ascending, descending and by great steps, each once, twice and ten times
pub(super) fn all_of(n: u64) -> impl Iterator<Item = Vec<u64>> {
    let orders: [fn(u64, u64) -> u64; 3] = [|k, _| k, |k, n| n - 1 - k, |k, n| k * 47 % n];
    orders.into_iter().flat_map(move |order| [1, 2, 10].map(|times| (0..n * times).map(|k| order(k / times, n)).collect()))
}

/// Each refusal of a table, with frames and without, with room and with too little: 32 never comes before it
fn every_refusal(emit: Emit) {
    let mut r = Random::new(2);
    for number in (1..=17).flat_map(|number| [number; 8]) {
        let mut table = good(&mut r);
        refused(&mut r, &mut table, number);
        let table = Lent::new(table);
        for (n, room) in [(0, 0), (0, 3), (3, 3), (3, 2), (3, 0)] {
            let frames = (0..n).map(|_| r.word()).collect();
            emit(Case::SegmentsOfFrames { table: table.clone(), frames, room });
        }
    }
}
