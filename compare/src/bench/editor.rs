//! The editor's case: a thousand cuts of one map, one by one and in one call, and a thousand cuts, joins and merges in a row, each on
//! what the last one wrote.

use std::hint::black_box;
use super::{ Line, Measure, Work, measured, median, timed, turns };
use crate::{ case::{ Map, Row }, ours, plain, random::Random };

/// How many rows the maps have
const ROWS: [u64; 3] = [10, 100, 1000];
/// How many cuts are made of a map; each has at most this many frames, of rows that have ten
const CUTS: usize = 1000;
const MOST_FRAMES: u64 = 50;
/// How many rounds of two cuts, a join and a merge are made in a row
const ROUNDS: u64 = 250;
/// Of the map with the most rows, cuts in one call are at least this many times as fast as one by one
const LEAST_OF_ONE_BY_ONE: f64 = 5.0;
/// The rows that a map may have
const MOST_ROWS: usize = 1024;

/// A map of `n` rows of 10 frames, of which none continues the one before
fn map(n: u64) -> Map {
    Map { words: (0..n).flat_map(|k| [k % 3, k * 10, 10, k * 10, 0]).collect(), shifts: vec![0; n as usize] }
}

/// A thousand short ranges of a map of `n` rows, in no order
fn ranges(n: u64) -> Vec<[u64; 2]> {
    let mut r = Random::new(7);
    (0..CUTS).map(|_| {
        let a = r.below(n * 10 - MOST_FRAMES);
        [a, a + 1 + r.below(MOST_FRAMES)]
    }).collect()
}

pub fn lines(measure: Measure) -> Vec<Line> {
    let mut lines = vec![];
    for n in ROWS {
        let (rust, library) = (plain_cuts(n), library_cuts(n));
        lines.push(line("cut", one_by_one(n), rust, library, measure));
        let (rust, library) = (plain_cuts_at_once(n), library_cuts_at_once(n));
        lines.push(line("cuts", at_once(n), rust, library, measure));
        let (rust, library) = (plain_rounds(n), library_rounds(n));
        lines.push(line("cut, cut, join, merge", format!("{ROUNDS} rounds on a map of {n} rows"), rust, library, measure));
    }
    lines
}

fn one_by_one(n: u64) -> String { format!("{CUTS} cuts of a map of {n} rows, one by one") }
fn at_once(n: u64) -> String { format!("{CUTS} cuts of a map of {n} rows, in one call") }

/// Measures one line. Each turn answers how many rows it wrote in all, and after rounds the last map's words too: the same on both sides
fn line(call: &'static str, input: String, mut rust: Work, mut library: Work, measure: Measure) -> Line {
    let accepted = !ours::LINKED || rust() == library();
    measured(call, input, accepted, rust, library, measure)
}

/// Prints what share of a cut the test of its map's rows is, and what cutting all at once gains; whether that is enough
pub fn shares(lines: &[Line], runs: usize) -> bool {
    println!();
    let of = |input: String| lines.iter().find(|line| line.input == input).unwrap().library;
    let gain = |n| of(one_by_one(n)) / of(at_once(n));
    for n in ROWS {
        println!("{n} rows: the test of the rows takes {:.0}% of a cut; {CUTS} cuts in one call are {:.1} times as fast as one by one", 100.0 * share(n, runs), gain(n));
    }
    gain(ROWS[ROWS.len() - 1]) >= LEAST_OF_ONE_BY_ONE
}

/// The part of a cut's time that tests the rows: what a cut takes that is refused for its range, which is looked at right after them
fn share(n: u64, runs: usize) -> f64 {
    let time = |mut work: Work| {
        let turns = turns(&mut work);
        median(&mut (0..runs).map(|_| timed(turns, &mut work)).collect::<Vec<f64>>())
    };
    time(library_refused(n)) / time(library_cuts(n))
}

fn plain_cuts(n: u64) -> Work<'static> {
    let (rows, ranges, mut out) = (map(n).rows(), ranges(n), Vec::new());
    Box::new(move || ranges.iter().map(|r| plain::cut(black_box(&rows), r[0], r[1], black_box(&mut out)).unwrap() as u64).sum())
}

fn plain_cuts_at_once(n: u64) -> Work<'static> {
    let (rows, ranges, mut out, mut counts) = (map(n).rows(), ranges(n), Vec::new(), Vec::new());
    Box::new(move || plain::cuts(black_box(&rows), &ranges, black_box(&mut out), black_box(&mut counts)).unwrap() as u64)
}

/// Each round moves the map's first frames behind its last: the cuts before and after a frame, joined the other way round and merged
fn plain_rounds(n: u64) -> Work<'static> {
    let (start, mut map, mut head, mut tail, mut joined) = (map(n).rows(), Vec::<Row>::new(), Vec::new(), Vec::new(), Vec::new());
    Box::new(move || {
        map.clear();
        map.extend_from_slice(&start);
        (0..ROUNDS).map(|round| {
            let at = split(n, round);
            plain::cut(&map, 0, at, &mut head).unwrap();
            plain::cut(&map, at, n * 10, &mut tail).unwrap();
            plain::join(&tail, &head, &mut joined).unwrap();
            plain::merge(&joined, &mut map).unwrap() as u64
        }).sum::<u64>() ^ map.iter().fold(0, |sum, r| mixed(sum, &[r.source, r.source_first, r.count, r.out_first, r.flag], r.shift))
    })
}

/// A number that depends on every word of every row and on their order
fn mixed(sum: u64, words: &[u64], shift: i64) -> u64 {
    words.iter().fold(sum, |sum, word| sum.wrapping_mul(31).wrapping_add(*word)).wrapping_mul(31).wrapping_add(shift as u64)
}

/// The frame at which a round parts a map of `n` rows, mostly inside of a row
fn split(n: u64, round: u64) -> u64 { 1 + round * 37 % (n * 10 - 1) }

/// A map in room for the most rows, and how many it has
struct Timeline { words: Vec<u64>, shifts: Vec<i64>, rows: usize }

impl Timeline {
    fn new() -> Self { Self { words: vec![0; 5 * MOST_ROWS], shifts: vec![0; MOST_ROWS], rows: 0 } }
    fn map(&self) -> (&[u64], &[i64]) { (&self.words[..5 * self.rows], &self.shifts[..self.rows]) }
    fn room(&mut self) -> (&mut [u64], &mut [i64]) { (&mut self.words, &mut self.shifts) }
}

fn library_cuts(n: u64) -> Work<'static> {
    let (map, ranges, mut out) = (map(n), ranges(n), Timeline::new());
    Box::new(move || ranges.iter().map(|r| ours::maps::cut(map.lent(), r[0], r[1], out.room()).unwrap_or(0) as u64).sum())
}

fn library_refused(n: u64) -> Work<'static> {
    let (map, ranges, mut out) = (map(n), ranges(n), Timeline::new());
    Box::new(move || ranges.iter().map(|r| ours::maps::cut(map.lent(), r[1], r[0], out.room()).unwrap_err()).sum())
}

fn library_cuts_at_once(n: u64) -> Work<'static> {
    let (map, ranges) = (map(n), ranges(n));
    let room = CUTS * (MOST_FRAMES as usize / 10 + 1);
    let (mut words, mut shifts, mut counts) = (vec![0; 5 * room], vec![0; room], vec![0; CUTS]);
    Box::new(move || ours::maps::cuts(map.lent(), ranges.as_flattened(), (&mut words, &mut shifts), &mut counts).unwrap_or(0) as u64)
}

fn library_rounds(n: u64) -> Work<'static> {
    let (start, mut map, mut head, mut tail, mut joined) = (map(n), Timeline::new(), Timeline::new(), Timeline::new(), Timeline::new());
    Box::new(move || {
        map.words[..start.words.len()].copy_from_slice(&start.words);
        map.shifts[..start.shifts.len()].copy_from_slice(&start.shifts);
        map.rows = start.shifts.len();
        (0..ROUNDS).map(|round| {
            let at = split(n, round);
            head.rows = ours::maps::cut(map.map(), 0, at, head.room()).unwrap_or(0);
            tail.rows = ours::maps::cut(map.map(), at, n * 10, tail.room()).unwrap_or(0);
            joined.rows = ours::maps::join(tail.map(), head.map(), joined.room()).unwrap_or(0);
            map.rows = ours::maps::merge(joined.map(), map.room()).unwrap_or(0);
            map.rows as u64
        }).sum::<u64>() ^ map.map().0.chunks(5).zip(map.map().1).fold(0, |sum, (words, shift)| mixed(sum, words, *shift))
    })
}
