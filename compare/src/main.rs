//! The library beside the Rust that it was ported from.

mod bench;
mod case;
mod comparison;
mod document;
mod generate;
mod media;
mod ours;
mod plain;
mod random;
mod reference;
mod replay;
mod rust;
mod shrink;
mod text;

use std::{ path::PathBuf, process::exit, time::{ Duration, SystemTime, UNIX_EPOCH } };
use case::Call;
use comparison::Plan;

const USAGE: &str = "usage: compare/run [--src DIR] [--archive FILE | --no-library] [--long MINUTES] [--only CALL] [--seed N]
       compare/run [..] case LINE | replay DIR | media DIR | bench [--only CALL] [--runs N | --instructions]";

/// What is asked for on the command line
enum Asked {
    Cases(Plan),
    Case(case::Case),
    Replay(PathBuf),
    Media(PathBuf),
    Bench(usize, Option<Call>),
    Instructions(Option<Call>),
    /// What `Instructions` runs, and counts
    Counted(Option<Call>),
}

fn main() {
    // A panic of the Rust is an answer, and says nothing; any other is a fault
    let loud = std::panic::take_hook();
    std::panic::set_hook(Box::new(move |why| if !rust::asked() { loud(why) }));
    let words: Vec<String> = std::env::args().skip(1).collect();
    let done = match asked(&words) {
        Ok(Asked::Cases(plan)) => cases(&plan),
        Ok(Asked::Case(case)) => comparison::show(&case),
        Ok(Asked::Replay(folder)) => replay::write(&folder).map_err(|e| eprintln!("compare: {}: {e}", folder.display())).is_ok(),
        Ok(Asked::Media(folder)) => media::compare(&folder).map_err(|e| eprintln!("compare: {}: {e}", folder.display())).unwrap_or(false),
        Ok(Asked::Bench(runs, only)) => bench::run(runs, only),
        Ok(Asked::Instructions(only)) => bench::instructions(only),
        Ok(Asked::Counted(only)) => bench::counted_turns(only),
        Err(why) => { eprintln!("compare: {why}\n{USAGE}"); exit(2) }
    };
    exit(if done { 0 } else { 1 });
}

fn asked(words: &[String]) -> Result<Asked, String> {
    let Some((first, rest)) = words.split_first().filter(|(first, _)| !first.starts_with("--")) else { return plan(words).map(Asked::Cases) };
    match (first.as_str(), rest) {
        ("case", [line]) => text::read_case(line).map(Asked::Case).ok_or("that line is no case".into()),
        ("replay", [folder]) => Ok(Asked::Replay(folder.into())),
        ("media", [folder]) => Ok(Asked::Media(folder.into())),
        ("bench", flags) => timing(flags),
        _ => Err(format!("{} isn't understood", words.join(" "))),
    }
}

/// How calls are timed: all of them, five runs of each, unless a call, runs or instructions are said
fn timing(flags: &[String]) -> Result<Asked, String> {
    let (mut only, mut runs, mut how) = (None, None, None);
    let mut flags = flags.iter();
    while let Some(flag) = flags.next() {
        match (flag.as_str(), flags.as_slice()) {
            ("--only", [value, ..]) => { only = Some(call(value)?); flags.next(); }
            ("--runs", [value, ..]) => { runs = Some(number(value).filter(|n| *n > 0).ok_or(format!("{value} is no number of runs"))?); flags.next(); }
            ("--instructions", _) => how = Some(Asked::Instructions as fn(_) -> _),
            ("--counted", _) => how = Some(Asked::Counted),
            _ => return Err(format!("bench {flag} isn't understood")),
        }
    }
    match (how, runs) {
        (None, runs) => Ok(Asked::Bench(runs.unwrap_or(5) as usize, only)),
        (Some(how), None) => Ok(how(only)),
        _ => Err("instructions are counted once, and not by runs".into()),
    }
}

fn call(name: &str) -> Result<Call, String> { Call::named(name).ok_or_else(|| format!("{name} is no call; the calls are {}", names())) }

fn number(word: &str) -> Option<u64> { word.parse().ok() }

/// The plan of a comparison: five minutes and ten million cases at least, unless time or call are said
fn plan(words: &[String]) -> Result<Plan, String> {
    let now = SystemTime::now().duration_since(UNIX_EPOCH).map_or(1, |t| t.as_secs());
    let mut plan = Plan { seed: now, only: None, time: Duration::from_secs(300), least: 10_000_000 };
    for pair in words.chunks(2) {
        let [flag, value] = pair else { return Err(format!("{} isn't understood", pair[0])) };
        match flag.as_str() {
            "--seed" => plan.seed = number(value).ok_or(format!("{value} is no seed"))?,
            "--long" => plan.time = Duration::from_secs(60 * number(value).filter(|n| *n < 1 << 32).ok_or(format!("{value} is no number of minutes"))?),
            "--only" => plan.only = Some(call(value)?),
            _ => return Err(format!("{flag} isn't understood")),
        }
        if flag != "--seed" { plan.least = 0; }
    }
    Ok(plan)
}

fn names() -> String { Call::ALL.map(Call::name).join(", ") }

/// Runs the comparison and prints its table; whether nothing differed, the worked numbers came out, and the Rust was asked enough
fn cases(plan: &Plan) -> bool {
    if !ours::LINKED { println!("Without the library: the reading of the rules is compared with the Rust alone.\n"); }
    let worked = document::holds();
    let run = comparison::run(plan);
    comparison::print(&run, plan);
    let asked = run.asked_each_way();
    if !asked { println!("That is too seldom"); }
    worked && asked && run.differences() == 0
}
