//! Lists of ranges of a map, two words each, and room for the rows of all cuts and for how many each has.

use super::{ Emit, maps::{ MOST_ROWS, boundary, frames, malformed, map, t, well_formed }, room };
use crate::{ case::{ Case, Map }, random::Random };

type Range = [u64; 2];

/// How many rows the cuts of these ranges have together
fn kept(map: &Map, ranges: &[u64]) -> usize {
    let overlaps = |[a, b]: &Range| map.words.chunks_exact(5).filter(|w| w[3] < *b && *a < w[3].saturating_add(w[2])).count();
    ranges.as_chunks().0.iter().map(overlaps).sum()
}

/// A map with a few lists of ranges
pub fn cases(r: &mut Random, emit: Emit) {
    let map = map(r);
    for _ in 0..4 {
        let ranges = ranges(r, &map);
        let (rows, n) = (kept(&map, &ranges), ranges.len() / 2);
        let room = if r.one_in(2) { [rows * 5 + r.size(7), rows + r.size(3), n + r.size(3)] } else { [room(r, rows * 5), room(r, rows), room(r, n)] };
        emit(Case::Cuts { map: map.clone(), ranges, room });
    }
}

/// A few ranges mostly, dozens now and then: in any order, overlapping, one after the other, all alike, or the whole map each time;
/// now and then with one or two that are no cuts, or half a one at the end
fn ranges(r: &mut Random, map: &Map) -> Vec<u64> {
    let n = match r.below(24) { 0 => 0, 1..=16 => 1 + r.size(5), 17..=21 => 1 + r.size(20), _ => r.size(70) };
    let mut list: Vec<Range> = match r.below(8) {
        0 => vec![good(r, map); n],
        1 => pieces(r, map, n),
        2 => { let mut list = pieces(r, map, n); list.reverse(); list }
        3 => vec![[0, frames(map)]; n.min(12)],
        _ => (0..n).map(|_| good(r, map)).collect(),
    };
    if r.one_in(8) && !list.is_empty() { let k = r.size(list.len()); list[k] = refused(r, map); }
    if r.one_in(24) && !list.is_empty() { let k = r.size(list.len()); list[k] = refused(r, map); }
    let mut words = list.concat();
    if r.one_in(24) { words.push(r.word()); }
    if r.one_in(24) { words.pop(); }
    words
}

/// A range of a map of chained rows
fn good(r: &mut Random, map: &Map) -> Range {
    let end = frames(map).max(1);
    let (a, b) = (boundary(r, map).min(end), boundary(r, map).min(end));
    if a == b { [a.min(end - 1), a.min(end - 1) + 1] } else { [a.min(b), a.max(b)] }
}

/// Ranges that follow one another, as of an episode that is conformed: from one boundary to the next
fn pieces(r: &mut Random, map: &Map, n: usize) -> Vec<Range> {
    let mut ends: Vec<u64> = (0..=n).map(|_| boundary(r, map).min(frames(map))).collect();
    ends.sort();
    ends.dedup();
    ends.windows(2).map(|w| [w[0], w[1]]).collect()
}

/// An empty range, one turned round, one that goes past the map, or any
fn refused(r: &mut Random, map: &Map) -> Range {
    let (end, [a, b]) = (frames(map), good(r, map));
    match r.below(6) {
        0 => [a, a],
        1 => [b, a],
        2 => [a, end.wrapping_add(1)],
        3 => [a, u64::MAX],
        4 => [end, end],
        _ => [r.word(), r.word()],
    }
}

/// Every list of up to two ranges between the edges of small maps; ranges that are no cuts at every place of a list; refused maps; as
/// many rows as a map may have, and more in all
pub fn fixed(emit: Emit) {
    let mut r = Random::new(2);
    for map in [t(), one_row(5), one_row(u64::MAX), greatest()] {
        let frames = around(&map);
        for list in every_list(&frames) { in_rooms(&map, &list, emit); }
        for word in &frames { in_rooms(&map, &[*word], emit); }
    }
    every_cut_of_t(emit);
    every_place(emit);
    refused_maps(&mut r, emit);
    for n in [1, 2, 511, 512, 513, MOST_ROWS - 1, MOST_ROWS, MOST_ROWS + 1] { many_rows(&well_formed(&mut r, n), emit); }
}

pub(super) fn one_row(count: u64) -> Map { Map { words: vec![3, 0, count, 0, 1], shifts: vec![-7] } }

/// Two rows that have as many frames as can be
pub(super) fn greatest() -> Map { Map { words: vec![0, 0, 1 << 63, 0, 0, 1, 9, (1 << 63) - 1, 1 << 63, 1], shifts: vec![0, i64::MIN] } }

/// The frames at the ends of a map's rows, and one beside each; the first and the greatest
fn around(map: &Map) -> Vec<u64> {
    let ends = map.words.chunks_exact(5).map(|w| w[3] + w[2]);
    let mut frames: Vec<u64> = ends.flat_map(|end| [end - 1, end, end.saturating_add(1)]).chain([0, 1, u64::MAX]).collect();
    frames.sort();
    frames.dedup();
    frames
}

/// Every list of up to two ranges from one of these frames to another, in both directions, and with equal ones
fn every_list(frames: &[u64]) -> impl Iterator<Item = Vec<u64>> + '_ {
    let of = frames.len();
    let list = move |n: u32, k: usize| (0..2 * n).map(|i| frames[k / of.pow(i) % of]).collect();
    (0..=2).flat_map(move |n| (0..of.pow(2 * n)).map(move |k| list(n, k)))
}

/// A list with exact room, one more of each, and one less of each of the three; with as much as if each cut had all rows, and one row
/// less; with none
fn in_rooms(map: &Map, ranges: &[u64], emit: Emit) {
    let (rows, n) = (kept(map, ranges), ranges.len() / 2);
    let (exact, all) = ([rows * 5, rows, n], n * map.shifts.len());
    let less = (0..3).map(|k| { let mut room = exact; room[k] = room[k].saturating_sub(1); room });
    let ample = [all, all.saturating_sub(1)].map(|rows| [rows * 5, rows, n]);
    for room in less.chain([exact, exact.map(|len| len + 1), [0; 3]]).chain(ample) { emit(Case::Cuts { map: map.clone(), ranges: ranges.to_vec(), room }); }
}

/// All cuts of T from a frame on, in both directions; each cut beside the whole
fn every_cut_of_t(emit: Emit) {
    for a in 0..50 {
        let from: Vec<Range> = (a + 1..=50).map(|b| [a, b]).collect();
        let down: Vec<Range> = from.iter().rev().copied().collect();
        for list in [from, down] { in_rooms(&t(), &list.concat(), emit); }
    }
    for (a, b) in (0..=52).flat_map(|a| (0..=52).map(move |b| (a, b))) {
        emit(Case::Cuts { map: t(), ranges: vec![a, b], room: [10, 2, 1] });
        emit(Case::Cuts { map: t(), ranges: vec![0, 50, a, b], room: [20, 4, 2] });
    }
}

/// Each kind of range that is no cut at each place of a list, with room and without; two of them; and a list that is odd as well
fn every_place(emit: Emit) {
    let good: [Range; 7] = [[0, 50], [29, 31], [30, 50], [0, 30], [0, 1], [49, 50], [29, 31]];
    let bad: [Range; 8] = [[0, 0], [30, 30], [50, 50], [31, 30], [0, 51], [0, u64::MAX], [u64::MAX, u64::MAX], [u64::MAX, 0]];
    for n in 1..=good.len() {
        in_rooms(&t(), &good[..n].concat(), emit);
        for (k, range) in (0..n).flat_map(|k| bad.map(|range| (k, range))) {
            let mut list = good[..n].to_vec();
            list[k] = range;
            in_rooms(&t(), &list.concat(), emit);
            list[n - 1] = [9, 9];
            in_rooms(&t(), &list.concat(), emit);
            for half in [0, 50, 51] { in_rooms(&t(), &[&list.concat()[..], &[half]].concat(), emit); }
        }
    }
}

/// Maps that are refused, with no ranges, good ones and others, with room and without: 51 comes before 50 and 52
fn refused_maps(r: &mut Random, emit: Emit) {
    let lists: [&[u64]; 6] = [&[], &[0, 1], &[0, 1, 1, 2], &[1, 1], &[0, u64::MAX], &[0, 1, 0]];
    for n in (1..=6).flat_map(|n| [n; 40]) {
        let map = well_formed(r, n);
        let map = malformed(r, map);
        for list in lists {
            for room in [[0; 3], [60, 12, 4]] { emit(Case::Cuts { map: map.clone(), ranges: list.to_vec(), room }); }
        }
    }
}

/// The whole of a map up to three times, which is more than 1,024 rows; the rows one by one; halves of neighbouring rows; and with
/// no ranges, or one that is no cut
fn many_rows(map: &Map, emit: Emit) {
    let end = frames(map);
    let rows: Vec<Range> = map.words.chunks_exact(5).map(|w| [w[3], w[3] + w[2]]).collect();
    let middle = |[a, b]: Range| a + (b - a) / 2;
    let halves: Vec<Range> = rows.windows(2).map(|two| [middle(two[0]), middle(two[1]).max(two[1][0] + 1)]).collect();
    let down: Vec<Range> = rows.iter().rev().copied().collect();
    for times in 0..=3 { in_rooms(map, &vec![[0, end]; times].concat(), emit); }
    for list in [rows, down, halves] { in_rooms(map, &list.concat(), emit); }
    for range in [[0, 0], [0, end.wrapping_add(1)], [end, end]] { in_rooms(map, &range, emit); }
    for list in [&[0][..], &[0, end, 0]] { in_rooms(map, list, emit); }
}
