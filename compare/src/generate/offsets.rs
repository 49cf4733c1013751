//! Tables of composition offsets: those of random moovs, and of a few frames every one of a few numbers. In version 0 the top bit of an
//! offset is what the crate's mode and the standard's differ in.

use super::{ Emit, moovs::{ Edits, Moov, in_both_modes, in_the_document } };
use crate::random::Random;

/// The version of a ctts, and count and offset of each entry
#[derive(Clone)]
pub struct Offsets {
    pub version: u8,
    pub list: Vec<(u32, u32)>,
}

const TOP: u32 = 1 << 31;
/// Below the top bit, at it, the time-lapse's, and the greatest
const VALUES: [u32; 6] = [0, 30, TOP - 1, TOP, 2_400_000_000, u32::MAX];
/// For three frames: an entry for each, for all, of no frames, past them, for fewer and for none
const COUNTS: [[u32; 3]; 9] = [[1, 1, 1], [0, 1, 2], [1, 0, 2], [1, 2, 0], [3, 1, 1], [2, 5, 0], [0, 0, u32::MAX], [1, 1, 0], [0, 0, 0]];
const VERSIONS: [u8; 6] = [0, 1, 2, 127, 128, 255];

/// A table of offsets: the pattern of a reordered video, or any; now and then with the top bit of some set, or of all
pub fn any(r: &mut Random, delta: u32) -> Option<Offsets> {
    let pattern: &[i32] = match r.below(6) {
        0 | 1 => return None,
        2 => &[2, 5, 1, 0],
        3 => &[1, 3, 0, 0],
        4 => &[0, 3, -1, -1],
        _ => &[],
    };
    let patterned = |k: u64| (1, (pattern[k as usize % 4] as u32).wrapping_mul(delta));
    let mut list: Vec<(u32, u32)> = if pattern.is_empty() { (0..r.below(8)).map(|_| any_entry(r)).collect() } else { (0..r.range(1, 12)).map(patterned).collect() };
    match r.below(6) { 0 | 1 => all_high(r, &mut list), 2 => some_high(r, &mut list), _ => {} }
    Some(Offsets { version: if r.one_in(2) { 0 } else { r.pick(&[1, 1, 1, 2, 3, 127, 128, 255]) }, list })
}

fn any_entry(r: &mut Random) -> (u32, u32) {
    let count = match r.below(20) { 0 => r.bits() as u32, 1 => 0, _ => 1 + r.below(3) as u32 };
    let offset = match r.below(10) { 0 => r.bits() as u32, 1 => TOP, 2 => TOP - 1, 3 | 4 => (r.below(40) as u32).wrapping_neg(), _ => r.below(40) as u32 };
    (count, offset)
}

/// Sets the top bit of every offset; mostly there is one for every frame then
fn all_high(r: &mut Random, list: &mut [(u32, u32)]) {
    for (_, offset) in list.iter_mut() { *offset |= TOP; }
    if let Some(last) = list.last_mut() && !r.one_in(4) { last.0 = 4096; }
}

fn some_high(r: &mut Random, list: &mut [(u32, u32)]) {
    for (_, offset) in list.iter_mut() { if r.one_in(3) { *offset ^= TOP; } }
}

/// Edit lists that let all of those frames through, some of them, or none
fn edits() -> [Option<Edits>; 8] {
    let list = |list: &[(u64, i64, u32)]| Some(Edits { version: 1, list: list.to_vec() });
    let (top, rate) = (TOP as i64, 0x10000);
    [
        None, list(&[]), list(&[(0, 0, rate)]), list(&[(0, top, rate)]), list(&[(0, 2_400_000_000, rate)]), list(&[(25, 5, rate)]),
        list(&[(TOP as u64, 10, rate)]), list(&[(7, -1, rate), (0, top + 10, rate)]),
    ]
}

/// Three frames with every three of these offsets, in these versions, with these edit lists, in both modes
pub fn every_one(emit: Emit) {
    let lists = || VALUES.into_iter().flat_map(|a| VALUES.into_iter().flat_map(move |b| VALUES.map(|c| [a, b, c])));
    for (version, counts, elst) in VERSIONS.into_iter().flat_map(|v| COUNTS.into_iter().flat_map(move |c| edits().map(|e| (v, c, e)))) {
        let moov = Moov { elst, ..in_the_document(false) };
        for offsets in lists() {
            let list = counts.into_iter().zip(offsets).collect();
            in_both_modes(Moov { ctts: Some(Offsets { version, list }), ..moov.clone() }.in_order(&[]), [3; 3], emit);
        }
    }
}
