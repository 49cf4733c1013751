//! The origins of a list of frames, beside plain Rust and beside single calls.

use std::hint::black_box;
use super::{ Inputs, Line, Work, median, timed, turns };
use crate::{ case::{ Answer, Call, Case, Map }, ours, plain, random::Random };

/// How many frames a list has
const FRAMES: u64 = 4096;
/// How many frames each row has, more than a list
const EACH: u64 = 5000;
/// The numbers of rows
const ROWS: [u64; 3] = [1, 32, MOST_ROWS];
const MOST_ROWS: u64 = 1024;
/// A list takes at most this many times as long as plain Rust
const MOST_OF_PLAIN: f64 = 1.5;
/// With the most rows, it is at least this many times as fast as single calls
const LEAST_OF_SINGLE: f64 = 50.0;

/// A map of `n` rows, of which none continues the one before
fn map(n: u64) -> Map {
    Map { words: (0..n).flat_map(|k| [k % 3, k, EACH, k * EACH, 0]).collect(), shifts: vec![0; n as usize] }
}

fn rows(n: u64) -> String { if n == 1 { "1 row".into() } else { format!("{n} rows") } }

/// Lists that ascend over the whole map, lie in a window in its middle, across the end of a row where there are several, and have no order
pub fn lists() -> Inputs {
    let mut inputs = Inputs::new();
    let mut r = Random::new(6);
    for n in ROWS {
        let window = (n * EACH - FRAMES) / 2;
        let all: [(&str, Vec<u64>); 3] = [
            ("ascending", (0..FRAMES).map(|k| k * n * EACH / FRAMES).collect()),
            ("in a window", (window..window + FRAMES).collect()),
            ("at random", (0..FRAMES).map(|_| r.below(n * EACH)).collect()),
        ];
        for (order, frames) in all {
            inputs.push((format!("{}, {FRAMES} frames {order}", rows(n)), Case::Origins { map: map(n), frames, room: FRAMES as usize }));
        }
    }
    inputs
}

/// The plain Rust's origins, into a vector that is used again
pub fn plain_side<'a>(map: &Map, frames: &'a [u64]) -> Work<'a> {
    let (rows, mut out) = (map.rows(), Vec::with_capacity(frames.len()));
    Box::new(move || plain::origins(black_box(&rows), black_box(frames), black_box(&mut out)).unwrap() as u64)
}

/// Whether the plain Rust answers what the rules say
pub fn plain_agrees(map: &Map, frames: &[u64], answer: &Answer) -> bool {
    let mut out = Vec::new();
    let done = plain::origins(&map.rows(), frames, &mut out);
    let words: Vec<u64> = out.iter().flat_map(|(source, frame, flag, _)| [*source, *frame, *flag]).collect();
    done.is_ok() && words == answer.words && out.iter().map(|origin| origin.3).eq(answer.longs.iter().copied())
}

/// Prints how each list stands beside single calls and beside plain Rust; whether it is fast enough
pub fn fast(lines: &[Line], runs: usize) -> bool {
    println!();
    let lines = lines.iter().filter(|line| line.call == Call::Origins.name());
    lists().iter().zip(lines).fold(true, |all, ((input, case), line)| {
        let Case::Origins { map, frames, .. } = case else { unreachable!() };
        let times = single(map, frames, runs) / line.library;
        println!("{input}: one call is {times:.1} times as fast as {FRAMES} single calls, and takes {:.2} times as long as plain Rust", line.ratio);
        let most = map.shifts.len() as u64 == MOST_ROWS;
        all && line.ratio <= MOST_OF_PLAIN && (!most || times >= LEAST_OF_SINGLE)
    })
}

/// The microseconds that single calls take for these frames
fn single(map: &Map, frames: &[u64], runs: usize) -> f64 {
    let cases: Vec<Case> = frames.iter().map(|frame| Case::Origin { map: map.clone(), frame: *frame }).collect();
    let mut lent: Vec<ours::Lent> = cases.iter().filter_map(ours::Lent::of).collect();
    let mut calls: Vec<Work> = lent.iter_mut().zip(&cases).map(|(lent, case)| lent.ready(case)).collect();
    let mut all: Work = Box::new(move || calls.iter_mut().map(|call| call()).sum());
    assert_eq!(all(), 0, "a single call isn't accepted");
    let turns = turns(&mut all);
    median(&mut (0..runs).map(|_| timed(turns, &mut all)).collect::<Vec<f64>>())
}
