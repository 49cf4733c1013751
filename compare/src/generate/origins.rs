//! Lists of frames of a map, and room for their origins.

use super::{ Emit, cuts::{ greatest, one_row }, lists::{ all_of, around, every_list, frames as listed }, maps::{ MOST_ROWS, boundary, frames, malformed, map, t, well_formed }, room };
use crate::{ case::{ Case, Map }, random::Random };

/// A map with a few lists: of frames that it has, half of them, and now and then of one or two past it
pub fn cases(r: &mut Random, emit: Emit) {
    let map = map(r);
    for _ in 0..4 {
        let k = r.size(map.shifts.len().max(1));
        let mut list = listed(r, &map.words, k);
        if r.one_in(2) { list.iter_mut().for_each(|frame| *frame %= frames(&map).max(1)); }
        for _ in 0..2 {
            if r.one_in(12) && !list.is_empty() { let at = r.size(list.len()); list[at] = boundary(r, &map); }
        }
        let room = room(r, list.len());
        emit(Case::Origins { map: map.clone(), frames: list, room });
    }
}

/// Every short list around the ends of the rows of small maps, and of the longest; every frame of two maps; one past the map at every
/// place of a list; refused maps
pub fn fixed(emit: Emit) {
    let mut r = Random::new(2);
    for map in [t(), one_row(5), one_row(u64::MAX), greatest(), well_formed(&mut r, MOST_ROWS)] {
        for list in every_list(&around(&map.words)) { in_rooms(&map, &list, emit); }
    }
    for map in [t(), well_formed(&mut r, MOST_ROWS)] { every_frame(&map, emit); }
    every_place(emit);
    refused_maps(&mut r, emit);
    for n in [1, 2, 511, 512, 513, MOST_ROWS - 1, MOST_ROWS, MOST_ROWS + 1] { ends(&well_formed(&mut r, n), emit); }
}

/// A list with room one short, exact, and longer; the empty one with no room too
fn in_rooms(map: &Map, frames: &[u64], emit: Emit) {
    let n = frames.len();
    for room in n.saturating_sub(1)..=n + 2 { emit(Case::Origins { map: map.clone(), frames: frames.to_vec(), room }); }
}

/// All frames of a map, or its first few hundred
fn every_frame(map: &Map, emit: Emit) {
    for list in all_of(frames(map).min(573)) { in_rooms(map, &list, emit); }
}

/// The first and the last frame of every row, in both directions, and of every other row
fn ends(map: &Map, emit: Emit) {
    let ends: Vec<u64> = map.words.chunks_exact(5).flat_map(|w| [w[3], w[3] + w[2] - 1]).collect();
    let down = ends.iter().rev().copied().collect();
    let apart = ends.iter().step_by(4).copied().collect();
    for list in [ends, down, apart] { in_rooms(map, &list, emit); }
}

/// A frame past the map at each place of a list, alone and before another, with room and without: 54 comes before 32
fn every_place(emit: Emit) {
    let good = [0, 29, 30, 49, 30, 0, 29];
    for n in 1..=good.len() {
        for (k, frame) in (0..n).flat_map(|k| [50, 51, u64::MAX].map(|frame| (k, frame))) {
            let mut list = good[..n].to_vec();
            list[k] = frame;
            for room in [0, n - 1, n] { emit(Case::Origins { map: t(), frames: list.clone(), room }); }
            list[n - 1] = 50;
            for room in [0, n] { emit(Case::Origins { map: t(), frames: list.clone(), room }); }
        }
    }
}

/// Maps that are refused, with no frames, good ones and others, with room and without: 51 and 52 come before 54 and 32
fn refused_maps(r: &mut Random, emit: Emit) {
    let lists: [&[u64]; 4] = [&[], &[0], &[0, 1], &[u64::MAX, 0]];
    let mut refused: Vec<Map> = (1..=6).flat_map(|n| [n; 40]).map(|n| { let map = well_formed(r, n); malformed(r, map) }).collect();
    refused.push(well_formed(r, MOST_ROWS + 1));
    for map in refused {
        for list in lists {
            for room in [0, 1, 4] { emit(Case::Origins { map: map.clone(), frames: list.to_vec(), room }); }
        }
    }
}
