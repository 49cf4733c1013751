//! UTC times and ticks.

use super::Emit;
use crate::{ case::Case, random::Random, reference::GREATEST_SCALE };

const GOOD: [&[u8; 20]; 12] = [
    b"2024-11-17T13:12:46Z", b"0000-02-29T00:00:00Z", b"1900-02-28T23:59:59Z", b"2000-02-29T12:00:00Z", b"9999-12-31T23:59:59Z", b"0001-01-01T00:00:00Z",
    b"2023-04-30T09:08:07Z", b"2024-02-29T20:20:20Z", b"2100-06-30T19:59:00Z", b"1600-09-30T01:01:01Z", b"2023-10-10T10:10:10Z", b"2019-08-31T05:55:50Z",
];

fn utc(emit: Emit, bytes: &[u8]) { emit(Case::IsUtcSecond { bytes: bytes.to_vec() }) }

/// Every byte at every place of good times; every month and day of some years, every two digits of a time of day; lengths
pub fn every_time(emit: Emit) {
    for good in GOOD {
        for (at, byte) in (0..20).flat_map(|at| (0..=255).map(move |byte| (at, byte))) {
            let mut bytes = *good;
            bytes[at] = byte;
            utc(emit, &bytes);
        }
        for len in 0..20 { utc(emit, &good[..len]); }
        for more in 1..20 { utc(emit, &[&good[..], &good[..more]].concat()); }
    }
    for year in [0, 4, 100, 400, 1582, 1900, 1999, 2000, 2023, 2024, 2100, 9999] {
        for (month, day) in (0..100).flat_map(|m| (0..100).map(move |d| (m, d))) {
            utc(emit, format!("{year:04}-{month:02}-{day:02}T00:00:00Z").as_bytes());
        }
    }
    for year in 0..10000 { utc(emit, format!("{year:04}-02-29T00:00:00Z").as_bytes()); }
    for n in 0..100 {
        for form in [format!("2024-01-01T{n:02}:00:00Z"), format!("2024-01-01T00:{n:02}:00Z"), format!("2024-01-01T00:00:{n:02}Z")] { utc(emit, form.as_bytes()); }
    }
    emit(Case::IsUtcSecond { bytes: vec![b'0'; 1 << 16] });
}

/// A time of about the right form, sometimes damaged
pub fn time(r: &mut Random, emit: Emit) {
    let text = utc_text(r);
    utc(emit, &text);
}

/// The text of a time: good, nearly good, or damaged
pub fn utc_text(r: &mut Random) -> Vec<u8> {
    let (month, day) = if r.one_in(4) { (2, r.range(27, 31)) } else { (r.range(0, 13), r.range(0, 32)) };
    let year = match r.below(4) { 0 => r.range(0, 99) * 100, 1 => r.range(0, 24) * 400, _ => r.range(0, 9999) };
    let (hour, minute, second) = (r.range(0, 25), r.range(0, 61), r.range(0, 61));
    let mut bytes = format!("{year:04}-{month:02}-{day:02}T{hour:02}:{minute:02}:{second:02}Z").into_bytes();
    match r.below(12) {
        0 => bytes = super::damaged(r, bytes),
        1 => bytes[r.size(20)] = r.pick(b"09:-TZz/ +"),
        2 => { let (a, b) = (r.size(20), r.size(20)); bytes.swap(a, b) }
        _ => {}
    }
    bytes
}

/// A time that the UTC rule lets pass
pub fn good_time(r: &mut Random) -> Vec<u8> {
    if r.one_in(2) { return r.pick(&GOOD).to_vec(); }
    let (year, month, day) = (r.range(0, 9999), r.range(1, 12), r.range(1, 28));
    let (hour, minute, second) = (r.range(0, 23), r.range(0, 59), r.range(0, 59));
    format!("{year:04}-{month:02}-{day:02}T{hour:02}:{minute:02}:{second:02}Z").into_bytes()
}

/// Scales at their edges: 0, the halves, the limit and past it
const SCALES: [u64; 28] = [
    0, 1, 2, 3, 7, 10, 24, 25, 30, 1000, 1001, 12800, 30000, 60000, 90000, 999_999, 1_000_000, 1_000_001, 2_000_000, 4_000_000, 1_000_000_000, 2_147_483_647,
    2_147_483_648, GREATEST_SCALE - 1, GREATEST_SCALE, GREATEST_SCALE + 1, 1 << 63, u64::MAX,
];

/// Every pair of an edge of i64, of the range of µs, of a quotient of one digit or of one word, or of a half, and a scale
pub fn every_edge(emit: Emit) {
    for scale in SCALES {
        let ticks_of = |us: i128| (us.saturating_mul(scale as i128) / 1_000_000).min(i64::MAX as i128) as i64;
        let (most, digit, word) = (ticks_of(i64::MAX as i128), ticks_of(1 << 32), ticks_of(1 << 64));
        for middle in [0, 1001, i64::MAX, i64::MIN, most, -most, digit, -digit, word, -word, scale as i64, scale as i64 / 2, i64::MAX / 1_000_000, i64::MIN / 1_000_000] {
            for step in -50..=50 { emit(Case::TicksToUs { ticks: middle.saturating_add(step), scale }); }
        }
    }
}

/// A scale: any size, common ones more often
pub fn scale(r: &mut Random) -> u64 {
    match r.below(16) {
        0 => 0,
        1 => r.word(),
        2 => GREATEST_SCALE - r.below(3),
        3 | 4 => { let width = r.below(32); (r.bits() >> 32) >> width }
        5 => r.range(1, 12),
        6 => 1_000_000 * r.range(1, 8),
        _ => r.pick(&SCALES[1..25]),
    }
}

/// Ticks near a half, near the range of µs, or any
pub fn ticks(r: &mut Random, emit: Emit) {
    let scale = scale(r);
    let near_half = |r: &mut Random| { let us = r.below(1 << 40) as i128; ((2 * us + 1) * scale as i128 / 2_000_000) as i64 };
    let ticks = match r.below(6) {
        0 => r.bits() as i64,
        1 | 2 => near_half(r).wrapping_add(r.below(3) as i64 - 1),
        3 => ((i64::MAX as i128 * scale as i128 / 1_000_000).min(i64::MAX as i128 - 4) as i64).wrapping_add(r.below(5) as i64 - 2),
        _ => r.long(),
    };
    emit(Case::TicksToUs { ticks: if r.one_in(2) { ticks.wrapping_neg() } else { ticks }, scale });
}
