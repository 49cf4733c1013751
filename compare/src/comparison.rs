//! The comparison of a case, and its count.

use std::{ collections::BTreeMap, ops::RangeInclusive, time::{ Duration, Instant } };
use crate::{ case::{ Answer, Call, Case, Map, Outcome, Row, outcome }, generate, ours, plain, random::Random, reference::{ self, MOST_BYTES }, rust::{ self, Said, Way }, shrink, text };

/// How a case differs
#[derive(Debug)]
pub enum Difference {
    /// The reading of the rules and the Rust
    Reading { rust: Said, reading: Answer },
    /// The library and what is expected of it
    Library { expected: Box<Outcome>, library: Box<Outcome> },
    /// The library wrote where it may only read
    Written,
    /// The children that are reached from offset to offset, and the Rust's
    Walk { rust: Vec<Child>, reached: Vec<Child> },
    /// All cuts together, or all origins, and each alone, one after the other
    Alone { reading: Answer, alone: Answer },
}

/// A child's type, and its payload's start and length
type Child = (i128, i128, i128);

/// Numbers outside the domain of RULES 13.2, the room for an answer aside
const OUTSIDE: [u64; 7] = [1, 2, 20, 30, 34, 42, 60];

/// Numbers of a table's own refusals, which come before the room; of a table that is read, after it
const OF_TABLES: RangeInclusive<u64> = 1..=17;

/// Compares one case; what is expected, or the difference
pub fn compare(case: &Case) -> Result<Answer, Difference> {
    let reading = reference::answer(case);
    let rust = rust::says(case);
    let agrees = match &rust {
        Said::Answer(answer) => *answer == reading || reading.number == 32 && comes_after_the_room(case.call(), answer.number),
        Said::Names(names) => reading.number == 32 || are_names(case, &reading, names),
        Said::None => none_is(case, &reading),
        Said::Panicked => reading.number == 33 || reading.number == 32,
        Said::Outside => OUTSIDE.contains(&reading.number),
        Said::Silent => true,
    };
    if !agrees { return Err(Difference::Reading { rust, reading }); }
    if let Some(mut lent) = ours::Lent::of(case) {
        let before = case.fingerprint();
        let number = lent.call(case);
        if case.fingerprint() != before { return Err(Difference::Written); }
        let library = lent.outcome(case, number);
        let expected = outcome(case, &reading);
        if library != expected { return Err(Difference::Library { expected: Box::new(expected), library: Box::new(library) }); }
    }
    walked(case)?;
    cut_alone(case, &reading)?;
    traced_alone(case, &reading)?;
    named_alone(case, &reading)?;
    Ok(reading)
}

/// Whether a call tests the room for its answer before what is refused with this number, or there is nothing to be refused
fn comes_after_the_room(call: Call, number: u64) -> bool {
    match call {
        Call::ReadTable => OF_TABLES.contains(&number),
        Call::SourceNames | Call::JsonString => false,
        _ => !OF_TABLES.contains(&number),
    }
}

/// Whether what stands at each of the places that are read is the name, escapes resolved
fn are_names(case: &Case, reading: &Answer, names: &[String]) -> bool {
    let Case::SourceNames { text, .. } = case else { return false };
    let stands = |(place, name): (&[u64; 2], &String)| rust::resolved(text, place[0] as usize, place[1] as usize).is_some_and(|resolved| resolved == *name);
    reading.number == 0 && reading.words.len() == 2 * names.len() && reading.words.as_chunks().0.iter().zip(names).all(stands)
}

/// Whether a reading is one of no frame times: 31, 36 at a header that the Rust has no size for, or 32, which comes before some 31s
fn none_is(case: &Case, reading: &Answer) -> bool {
    match (case, reading.number) {
        (Case::VideoFrameTimesOfMoov { moov, .. }, 36) => rust::is_bad_header(moov, reading.index),
        (_, number) => number == 31 || number == 32,
    }
}

/// From the first offset on, the children that each answer leads to must be the Rust's, one for one
fn walked(case: &Case) -> Result<(), Difference> {
    let Case::Children { payload, at: 0 } = case else { return Ok(()) };
    if payload.len() > MOST_BYTES { return Ok(()); }
    let (mut step, mut reached) = (case.clone(), Vec::new());
    loop {
        let after = answered(&step);
        if after.number != 0 { break; }
        let [kind, start, length, next, _] = after.values;
        reached.push((kind, start, length));
        let Case::Children { at, .. } = &mut step else { break };
        if next <= *at as i128 { break; }
        *at = next as u64;
    }
    let rust: Vec<Child> = rust::children(payload).into_iter().map(|(kind, start, length)| (kind as i128, start as i128, length as i128)).collect();
    if reached == rust { Ok(()) } else { Err(Difference::Walk { rust, reached }) }
}

/// Each cut made alone must have the rows that it has among all; so must the plain Rust's, since the unchanged Rust has no maps
fn cut_alone(case: &Case, reading: &Answer) -> Result<(), Difference> {
    let Case::Cuts { map, ranges, .. } = case else { return Ok(()) };
    if reading.number != 0 { return Ok(()); }
    let ranges = ranges.as_chunks().0;
    for alone in [plainly(map, ranges), one_by_one(map, ranges, &reading.counts)] {
        if alone != *reading { return Err(Difference::Alone { reading: reading.clone(), alone }); }
    }
    Ok(())
}

/// Each frame's origin asked for alone must be the one that it has among all
fn traced_alone(case: &Case, reading: &Answer) -> Result<(), Difference> {
    let Case::Origins { map, frames, .. } = case else { return Ok(()) };
    if reading.number != 0 { return Ok(()); }
    let mut alone = Answer::of(&[frames.len() as i128]);
    let mut single = Case::Origin { map: map.clone(), frame: 0 };
    for asked in frames {
        if let Case::Origin { frame, .. } = &mut single { *frame = *asked; }
        let [source, source_frame, flag, shift, _] = answered(&single).values;
        alone.words.extend([source, source_frame, flag].map(|word| word as u64));
        alone.longs.push(shift as i64);
    }
    if alone == *reading { Ok(()) } else { Err(Difference::Alone { reading: reading.clone(), alone }) }
}

/// The string at each name's place, asked for alone and with no more room than the name has bytes there, must be the one that is read there
fn named_alone(case: &Case, reading: &Answer) -> Result<(), Difference> {
    let Case::SourceNames { text, .. } = case else { return Ok(()) };
    for place in reading.words.as_chunks::<2>().0 {
        let single = Case::JsonString { text: text.clone(), at: place[0] - 1, room: place[1] as usize };
        let (expected, library) = (outcome(&single, &reference::answer(&single)), answered(&single));
        if expected.number != 0 || library != expected { return Err(Difference::Library { expected: Box::new(expected), library: Box::new(library) }); }
    }
    Ok(())
}

/// What the plain Rust says of cuts
fn plainly(map: &Map, ranges: &[[u64; 2]]) -> Answer {
    let (mut rows, mut counts) = (Vec::new(), Vec::new());
    if plain::cuts(&map.rows(), ranges, &mut rows, &mut counts).is_err() { return Answer::refused((50, 0)); }
    Answer { counts: counts.iter().map(|count| *count as u64).collect(), ..rows_of(rows) }
}

/// The library's single cuts, one after the other, each with room for as many rows as it has
fn one_by_one(map: &Map, ranges: &[[u64; 2]], counts: &[u64]) -> Answer {
    let (mut rows, mut written) = (Map::default(), Vec::new());
    let mut single = Case::Cut { map: map.clone(), a: 0, b: 0, room: [0; 2] };
    for ([from, to], count) in ranges.iter().zip(counts) {
        if let Case::Cut { a, b, room, .. } = &mut single { (*a, *b, *room) = (*from, *to, [5 * *count as usize, *count as usize]); }
        let after = answered(&single);
        rows.words.extend(after.words);
        rows.shifts.extend(&after.longs[0]);
        written.push(after.values[0] as u64);
    }
    Answer { counts: written, ..rows_of(rows.rows()) }
}

fn rows_of(rows: Vec<Row>) -> Answer { reference::maps::write(rows, &[usize::MAX; 2], 52).unwrap_or_else(Answer::refused) }

/// The library's outcome; without it, that of the reading of the rules
fn answered(case: &Case) -> Outcome {
    match ours::Lent::of(case) {
        Some(mut lent) => { let number = lent.call(case); lent.outcome(case, number) }
        None => outcome(case, &reference::answer(case)),
    }
}

/// What was seen of one call
#[derive(Default)]
pub struct Tally {
    pub cases: u64,
    /// How often each number was answered, 0 where accepted
    pub numbers: BTreeMap<u64, u64>,
    pub differences: u64,
    /// In the standard's mode, how often the Rust was asked in each way, and how many of these cases were accepted
    ways: BTreeMap<Way, Met>,
}

/// How many cases were met, and how many of them accepted
#[derive(Clone, Copy, Default)]
struct Met { cases: u64, accepted: u64 }

/// What is to be run
pub struct Plan {
    pub seed: u64,
    pub only: Option<Call>,
    pub time: Duration,
    pub least: u64,
}

pub struct Run {
    pub tallies: BTreeMap<Call, Tally>,
    pub rounds: u64,
}

/// How many differences of a call are made small and shown
const SHOWN: u64 = 2;

/// How many cases of the standard's mode must be accepted in each way of asking the Rust, for the run to have said something of it
const LEAST_OF_A_WAY: u64 = 1_000;

impl Met {
    fn take(&mut self, answer: &Answer) {
        self.cases += 1;
        self.accepted += (answer.number == 0) as u64;
    }
}

impl Run {
    fn take(&mut self, case: Case) {
        let tally = self.tallies.entry(case.call()).or_default();
        tally.cases += 1;
        match compare(&case) {
            Ok(answer) => {
                *tally.numbers.entry(answer.number).or_default() += 1;
                if let Some(way) = rust::way(&case) { tally.ways.entry(way).or_default().take(&answer); }
            }
            Err(_) => {
                tally.differences += 1;
                if tally.differences <= SHOWN { show(&shrink::smallest(case, |case| compare(case).is_err())); }
            }
        }
    }

    pub fn differences(&self) -> u64 { self.tallies.values().map(|t| t.differences).sum() }
    fn cases(&self) -> u64 { self.tallies.values().map(|t| t.cases).sum() }

    /// Prints how the Rust was asked in the standard's mode, where it was; whether it was often enough in each way
    pub fn asked_each_way(&self) -> bool {
        let Some(tally) = self.tallies.get(&Call::VideoFrameTimesOfMoov) else { return true };
        let met = |way| tally.ways.get(&way).copied().unwrap_or_default();
        let all = [(Way::AsItIs, "as it is"), (Way::Moved, "with top bits cleared, moved by 2^31"), (Way::NotAtAll, "not at all")];
        let said = all.map(|(way, how)| format!("{how} {} times ({} accepted)", met(way).cases, met(way).accepted));
        println!("In the standard's mode the Rust was asked {}", said.join(", "));
        all.iter().all(|(way, _)| met(*way).accepted >= LEAST_OF_A_WAY)
    }
}

/// The most characters of a line that is shown whole: a shell can't hand on many more. Only inputs around 16,777,216 bytes or
/// timestamps have longer ones; they come again in every run
const WHOLE: usize = 100_000;

fn shown(line: String) -> String {
    if line.len() <= WHOLE { return line; }
    let start: String = line.chars().take(1000).collect();
    format!("{start} .. ({} characters)", line.len())
}

/// Prints a case and what each side says of it; whether they agree
pub fn show(case: &Case) -> bool {
    println!("{}", shown(text::case_line(case)));
    if let Case::ReadTable { text, .. } | Case::SourceNames { text, .. } | Case::JsonString { text, .. } = case { println!("  of {}", shown(text.escape_ascii().to_string())); }
    let compared = compare(case);
    match &compared {
        Err(Difference::Reading { rust, reading }) => println!("  differs: the Rust says      {}\n           the rules say      {}", shown(format!("{rust:?}")), shown(format!("{reading:?}"))),
        Err(Difference::Library { expected, library }) => println!("  differs: expected           {}\n           the library says   {}", shown(format!("{expected:?}")), shown(format!("{library:?}"))),
        Err(Difference::Written) => println!("  differs: the library wrote into what it may only read"),
        Err(Difference::Walk { rust, reached }) => println!("  differs: the Rust's children {}\n           reached are        {}", shown(format!("{rust:?}")), shown(format!("{reached:?}"))),
        Err(Difference::Alone { reading, alone }) => println!("  differs: each cut alone is  {}\n           all together are   {}", shown(format!("{alone:?}")), shown(format!("{reading:?}"))),
        Ok(answer) => println!("  agreed: {}", shown(format!("{answer:?}"))),
    }
    compared.is_ok()
}

/// Runs the fixed cases, then round after round of random ones, until the time is over and there are enough
pub fn run(plan: &Plan) -> Run {
    let mut run = Run { tallies: BTreeMap::new(), rounds: 0 };
    let calls: Vec<Call> = Call::ALL.into_iter().filter(|call| plan.only.is_none_or(|only| only == *call)).collect();
    let began = Instant::now();
    for call in &calls { generate::fixed(*call, &mut |case| run.take(case)); }
    while began.elapsed() < plan.time || run.cases() < plan.least {
        for call in &calls {
            let mut r = Random::of(plan.seed, run.rounds, *call as u64);
            for _ in 0..turns(*call) { generate::random(*call, &mut r, &mut |case| run.take(case)); }
        }
        run.rounds += 1;
    }
    run
}

/// How many turns a round gives a call: fewer where a turn costs more or makes several cases
fn turns(call: Call) -> u64 {
    match call {
        Call::IsUtcSecond | Call::TicksToUs | Call::BoxSize | Call::VideoFrameTimesOfMoov | Call::JsonString => 20_000,
        Call::Children => 4_000,
        Call::Child | Call::FindBox | Call::TableText | Call::McrawTimes | Call::Check | Call::ValidateConstant | Call::ValidateTimes | Call::CheckMcraw => 10_000,
        Call::Cut | Call::Join | Call::Merge | Call::Origin => 5_000,
        Call::Cuts | Call::Origins => 3_000,
        _ => 2_000,
    }
}

/// The table of a run
pub fn print(run: &Run, plan: &Plan) {
    println!("| call | cases | accepted | refused: number × times | differences |\n|---|---:|---:|---|---:|");
    for (call, tally) in &run.tallies {
        let accepted = tally.numbers.get(&0).copied().unwrap_or(0);
        let refused: Vec<String> = tally.numbers.iter().filter(|(n, _)| **n != 0).map(|(n, times)| format!("{n} × {times}")).collect();
        println!("| `{}` | {} | {accepted} | {} | {} |", call.name(), tally.cases, refused.join(", "), tally.differences);
    }
    println!("\nseed {}, rounds {}, cases {}, differences {}", plan.seed, run.rounds, run.cases(), run.differences());
}
