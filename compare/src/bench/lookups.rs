//! The segments of a list of frames, beside the Rust's lookups and beside single calls.

use std::{ hint::black_box, rc::Rc };
use released::segment_table::SegmentTable;
use super::{ Inputs, Line, Work, median, segments, table, timed, turns };
use crate::{ case::{ Call, Case, Lent }, ours, random::Random };

/// How many frames a list has
const FRAMES: u64 = 4096;
/// How many frames each segment has, more than a list
const EACH: u64 = 5000;
/// The numbers of segments
const SEGMENTS: [u64; 3] = [1, 32, MOST_SEGMENTS];
const MOST_SEGMENTS: u64 = 512;
/// A list in order takes at most this many times as long as the Rust's lookups
const MOST_OF_THE_RUST: f64 = 1.2;
/// With the most segments, it is at least this many times as fast as single calls
const LEAST_OF_SINGLE: f64 = 50.0;

/// Lists that ascend over the whole table, lie in a window in its middle, across a join where there are several segments, and have no order
pub fn lists() -> Inputs {
    let mut inputs = Inputs::new();
    let mut r = Random::new(6);
    for n in SEGMENTS {
        let table = Lent::new(table(n, EACH));
        let window = (n * EACH - FRAMES) / 2;
        let all: [(&str, Vec<u64>); 3] = [
            ("ascending", (0..FRAMES).map(|k| k * n * EACH / FRAMES).collect()),
            ("in a window", (window..window + FRAMES).collect()),
            ("at random", (0..FRAMES).map(|_| r.below(n * EACH)).collect()),
        ];
        for (order, frames) in all {
            inputs.push((format!("{}, {FRAMES} frames {order}", segments(n)), Case::SegmentsOfFrames { table: table.clone(), frames, room: FRAMES as usize }));
        }
    }
    inputs
}

/// The Rust's lookup of each frame, into a vector that is used again. Unlike everywhere else it doesn't check the table first: who
/// calls it checks once, and looks up as often as they like
pub fn rust_side(table: SegmentTable, frames: &[u64]) -> Work<'_> {
    let mut out = Vec::with_capacity(frames.len());
    Box::new(move || {
        out.clear();
        out.extend(black_box(frames).iter().map(|frame| table.segment_of_frame(*frame) as u64));
        black_box(&out).len() as u64
    })
}

/// Prints how each list stands beside single calls and beside the Rust's lookups; whether it is fast enough
pub fn fast(lines: &[Line], runs: usize) -> bool {
    println!();
    let lines = lines.iter().filter(|line| line.call == Call::SegmentsOfFrames.name());
    lists().iter().zip(lines).fold(true, |all, ((input, case), line)| {
        let Case::SegmentsOfFrames { table, frames, .. } = case else { unreachable!() };
        let times = single(table, frames, runs) / line.library;
        println!("{input}: one call is {times:.1} times as fast as {FRAMES} single calls, and takes {:.2} times as long as the Rust's lookups without a check", line.ratio);
        let most = table.table.segments.len() as u64 == 5 * MOST_SEGMENTS;
        all && (!frames.is_sorted() || line.ratio <= MOST_OF_THE_RUST) && (!most || times >= LEAST_OF_SINGLE)
    })
}

/// The microseconds that single calls take for these frames
fn single(table: &Rc<Lent>, frames: &[u64], runs: usize) -> f64 {
    let cases: Vec<Case> = frames.iter().map(|frame| Case::SegmentOfFrame { table: Rc::clone(table), frame: *frame }).collect();
    let mut lent: Vec<ours::Lent> = cases.iter().filter_map(ours::Lent::of).collect();
    let mut calls: Vec<Work> = lent.iter_mut().zip(&cases).map(|(lent, case)| lent.ready(case)).collect();
    let mut all: Work = Box::new(move || calls.iter_mut().map(|call| call()).sum());
    assert_eq!(all(), 0, "a single call isn't accepted");
    let turns = turns(&mut all);
    median(&mut (0..runs).map(|_| timed(turns, &mut all)).collect::<Vec<f64>>())
}
