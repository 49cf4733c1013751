//! Frame maps: well-formed ones, malformed ones, cuts and joins at every boundary.

use super::{ Emit, room };
use crate::{ case::{ Call, Case, Map }, random::Random };

pub(super) const MOST_ROWS: usize = 1024;

/// How many frames a map of chained rows has
pub(super) fn frames(map: &Map) -> u64 {
    map.words.chunks_exact(5).fold(0u64, |n, w| n.wrapping_add(w[2]))
}

/// A well-formed map of `n` rows; some rows continue the one before, with the same shift or another
pub(super) fn well_formed(r: &mut Random, n: usize) -> Map {
    let huge = n < 8 && r.one_in(6);
    let most = if huge { u64::MAX / n.max(1) as u64 } else { r.pick(&[1, 3, 40]) };
    let mut map = Map::default();
    let (mut out, mut source, mut next, mut flag, mut shift) = (0u64, 0, 0u64, 0, 0);
    for _ in 0..n {
        let count = if huge && r.one_in(2) { most } else { r.range(1, most) };
        let room = u64::MAX - count;
        if !r.one_in(2) || next > room { (source, next) = (r.below(3), if r.one_in(8) { room } else { r.below(100).min(room) }); }
        if r.one_in(3) {
            flag = r.below(2);
            shift = if flag == 0 { 0 } else if r.one_in(2) { r.below(2) as i64 } else { r.long() };
        }
        map.words.extend([source, next, count, out, flag]);
        map.shifts.push(shift);
        out = out.wrapping_add(count);
        next = next.saturating_add(count);
    }
    map
}

/// A number of rows: few mostly, at the limit now and then
fn rows(r: &mut Random) -> usize {
    match r.below(400) { 0 => r.range(1020, 1027) as usize, 1..=8 => r.size(200), _ => 1 + r.size(7) }
}

/// The map with a length, a count, a chain, a sum, a flag or a shift that can't be
pub(super) fn malformed(r: &mut Random, mut map: Map) -> Map {
    let n = map.shifts.len();
    if n == 0 || map.words.len() != n * 5 { return map; }
    let k = r.size(n);
    let w = k * 5;
    match r.below(12) {
        0 => map.words.truncate(map.words.len() - 1 - r.size(4)),
        1 => { map.shifts.pop(); }
        2 => map.shifts.push(0),
        3 => map = Map::default(),
        4 => map.words[w + 2] = 0,
        5 => map.words[w + 3] = map.words[w + 3].wrapping_add(r.pick(&[1, u64::MAX, 1 << 63])),
        6 => map.words[w + 1] = u64::MAX - r.below(map.words[w + 2]),
        7 => map.words[w + 4] = r.pick(&[2, 3, u64::MAX]),
        8 => { map.words[w + 4] = 0; map.shifts[k] = r.pick(&[1, -1, i64::MIN]) }
        9 => map.words[w + 2] = u64::MAX - map.words[w + 3].wrapping_sub(r.below(3)),
        _ => { let at = r.size(n * 5); map.words[at] = r.word() }
    }
    map
}

/// A map, well formed mostly
pub(super) fn map(r: &mut Random) -> Map {
    let n = rows(r);
    let mut map = well_formed(r, n);
    if r.one_in(10) { map = malformed(r, map); }
    if r.one_in(40) { map = malformed(r, map); }
    map
}

/// A frame at or near a boundary of the map
pub(super) fn boundary(r: &mut Random, map: &Map) -> u64 {
    let all = map.words.chunks_exact(5);
    let k = r.size(all.len().max(1));
    let at = all.clone().nth(k).map_or(0, |w| w[3]);
    match r.below(10) { 0 => r.word(), 1 => 0, 2 | 3 => frames(map), 4 => r.below(frames(map).saturating_add(2)), 5 => at.wrapping_sub(1), 6 => at.wrapping_add(1), _ => at }
}

/// Two lengths of lent room, for `n` rows
fn rooms(r: &mut Random, n: usize) -> [usize; 2] {
    if r.one_in(2) { [n * 5 + r.size(7), n + r.size(3)] } else { [room(r, n * 5), room(r, n)] }
}

pub fn cases(call: Call, r: &mut Random, emit: Emit) {
    let map = map(r);
    match call {
        Call::Cut => for _ in 0..4 { emit(cut(r, &map)) },
        Call::Join => for _ in 0..2 { emit(join(r, &map)) },
        Call::Merge => { let n = map.shifts.len(); let room = rooms(r, n); emit(Case::Merge { map, room }) }
        _ => for _ in 0..4 { let frame = boundary(r, &map); emit(Case::Origin { map: map.clone(), frame }) },
    }
}

fn cut(r: &mut Random, map: &Map) -> Case {
    let (mut a, mut b) = (boundary(r, map), boundary(r, map));
    if a > b && !r.one_in(8) { (a, b) = (b, a); }
    let kept = map.words.chunks_exact(5).filter(|w| w[3] < b && a < w[3].saturating_add(w[2])).count();
    let room = rooms(r, kept);
    Case::Cut { map: map.clone(), a, b, room }
}

fn join(r: &mut Random, first: &Map) -> Case {
    let mut second = map(r);
    if r.one_in(8) && !second.words.is_empty() {
        // The frames of both together come to about 2^64
        let last = second.words.len() - 5.min(second.words.len());
        if let Some(count) = second.words.get_mut(last + 2) { *count = (u64::MAX - frames(first)).wrapping_add(r.below(3)).wrapping_sub(1); }
    }
    let room = rooms(r, first.shifts.len() + second.shifts.len());
    Case::Join { first: first.clone(), second, room }
}

/// The rows of table T (RULES 4.7)
pub(super) fn t() -> Map { Map { words: vec![0, 10, 30, 0, 0, 1, 5, 20, 30, 0], shifts: vec![0, 0] } }

/// Every cut and every frame of T; rows at the limit; all small maps
pub fn fixed(call: Call, emit: Emit) {
    let mut r = Random::new(2);
    for n in [1, 2, 511, 512, 513, MOST_ROWS - 1, MOST_ROWS, MOST_ROWS + 1] {
        let map = well_formed(&mut r, n);
        let broken = malformed(&mut r, map.clone());
        for map in [map, broken] {
            for _ in 0..20 {
                let second = well_formed(&mut r, MOST_ROWS + 1 - n.min(MOST_ROWS));
                let room = [MOST_ROWS * 5 + 5, MOST_ROWS + 1];
                let (a, b) = (boundary(&mut r, &map), frames(&map));
                emit(match call {
                    Call::Cut => Case::Cut { map: map.clone(), a, b, room },
                    Call::Join => Case::Join { first: map.clone(), second, room },
                    Call::Merge => Case::Merge { map: map.clone(), room },
                    Call::Origins => Case::Origins { map: map.clone(), frames: vec![0, a, b - 1, a], room: 4 },
                    _ => Case::Origin { map: map.clone(), frame: a },
                });
            }
        }
    }
    for (a, b) in (0..=52).flat_map(|a| (0..=52).map(move |b| (a, b))) {
        match call {
            Call::Cut => emit(Case::Cut { map: t(), a, b, room: [10, 2] }),
            Call::Origin => emit(Case::Origin { map: t(), frame: a }),
            Call::Origins => emit(Case::Origins { map: t(), frames: vec![a, b], room: 2 }),
            _ => {}
        }
    }
    small_maps(call, emit);
}

/// All maps of up to two rows of words from a few, with room from none to enough
fn small_maps(call: Call, emit: Emit) {
    let row = |k: u64, out: u64| ([k % 2, k / 2 % 3, k / 6 % 3, out, k / 18 % 2], (k / 36 % 2) as i64);
    for (first, second) in (0..72).flat_map(|a| (0..72).map(move |b| (a, b))) {
        for out in [0, 1, 2] {
            let ((a, s), (b, t)) = (row(first, 0), row(second, out));
            let map = Map { words: [a, b].concat(), shifts: vec![s, t] };
            let room = [(first as usize + second as usize) % 12, second as usize % 4];
            match call {
                Call::Cut => emit(Case::Cut { map, a: first % 3, b: 1 + second % 4, room }),
                Call::Join => emit(Case::Join { first: map.clone(), second: map, room: [room[0] * 2, room[1] * 2] }),
                Call::Merge => emit(Case::Merge { map, room }),
                Call::Origins => emit(Case::Origins { map, frames: vec![first % 5, second % 5, first % 2], room: room[1] + 1 }),
                _ => emit(Case::Origin { map, frame: first % 5 }),
            }
        }
    }
}
