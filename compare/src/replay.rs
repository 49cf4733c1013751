//! A fixed list of cases with their answers: the stored run of the program `replay`, which reads files of cases and prints.

use std::{ collections::BTreeMap, fs, io, path::Path, process::exit };
use crate::{ case::{ Answer, Call, Case, Part, SOURCE_WORDS }, comparison, document, generate::{ self, tables }, random::Random, rust::{ self, Said, Way }, text };

/// The files, in the order in which they are answered, and the calls of each
const FILES: [(&str, &[Call]); 8] = [
    ("numbers", &[Call::IsUtcSecond, Call::TicksToUs]),
    ("boxes", &[Call::BoxSize, Call::Child, Call::FindBox, Call::TableText, Call::Children]),
    ("maps", &[Call::Cut, Call::Join, Call::Merge, Call::Origin, Call::Cuts]),
    ("times", &[Call::VideoFrameTimesOfMoov, Call::McrawTimes]),
    ("table", &[Call::Check, Call::SegmentOfFrame, Call::SegmentOfTimeUs, Call::Continues, Call::RowsOfTable, Call::SegmentOfFrameRecords, Call::SegmentsOfFrames]),
    ("judge", &[Call::ValidateNoVideo, Call::ValidateConstant, Call::ValidateTimes, Call::CheckMcraw]),
    ("origins", &[Call::Origins]),
    ("texts", &[Call::ReadTable]),
];

const SEED: u64 = 9;
/// The longest line, by characters; those of a moov, of a table's text, and of a table with a source too many, may be longer
const LINE: usize = 600;
/// The most words, bytes and sources' words of a stored case
const WORDS: usize = 64;
const BYTES: usize = 512;
const SOURCES: usize = 257 * SOURCE_WORDS;
/// The most bytes of a table's text that is stored, and the most words of work
const TEXT: usize = 720;
const WORK: usize = 3840;
/// How many random turns are looked through
const TURNS: usize = 40_000;

/// How many accepted cases of a call are wanted, and how many of each of its numbers, at the first record and at later ones; in the
/// standard's mode so many for each way of asking the Rust
fn wanted(call: Call, way: Option<Way>) -> (usize, usize) {
    match call {
        Call::VideoFrameTimesOfMoov if way.is_none() => (100, 25),
        Call::VideoFrameTimesOfMoov => (40, 10),
        Call::IsUtcSecond | Call::TicksToUs | Call::BoxSize | Call::Children | Call::Child | Call::FindBox | Call::TableText | Call::McrawTimes => (120, 30),
        Call::Cut | Call::Join | Call::Merge | Call::Origin | Call::Cuts | Call::Origins => (100, 20),
        Call::ReadTable => (15, 6),
        _ => (40, 3),
    }
}

/// Whether a case is small enough to be stored
fn fits(case: &Case) -> bool {
    if let Case::ReadTable { text, room } = case { return text.len() <= TEXT && room.iter().all(|room| *room <= WORK); }
    case.clone().parts().iter().all(|part| match part {
        Part::Room(room) => **room <= WORDS,
        Part::Bytes(bytes) => bytes.len() <= BYTES,
        Part::Words(list) => list.len() <= WORDS,
        Part::Longs(longs) => longs.len() <= WORDS,
        Part::Map(map) => map.words.len() <= WORDS && map.shifts.len() <= WORDS,
        Part::Table(lent) => {
            let t = &lent.table;
            t.sources.len() <= SOURCES && t.segments.len() <= WORDS && t.times.len() <= WORDS && t.text.len() <= BYTES
        }
        _ => true,
    })
}

/// Writes FOLDER/data/FILE of each file, their names to FOLDER/args and all answers, file after file, to FOLDER/stdout, and prints
/// how much there is of each
pub fn write(folder: &Path) -> io::Result<()> {
    let data = folder.join("data");
    fs::create_dir_all(&data)?;
    let (mut names, mut stdout) = (String::new(), String::new());
    for (name, calls) in FILES {
        let (mut cases, mut answers, mut rust) = (String::new(), String::new(), 0);
        for (case, answer, by_rust) in calls.iter().flat_map(|call| chosen(*call)) {
            cases += &(case + "\n");
            answers += &(answer + "\n");
            rust += by_rust as usize;
        }
        fs::write(data.join(name), &cases)?;
        println!("{name}: {} cases, {rust} answered so by the Rust, {} bytes in, {} bytes out", cases.lines().count(), cases.len(), answers.len());
        names += &(name.to_owned() + "\n");
        stdout += &answers;
    }
    fs::write(folder.join("args"), names)?;
    fs::write(folder.join("stdout"), stdout)
}

/// Whether the Rust answers a case so
fn by_rust(case: &Case, answer: &Answer) -> bool {
    match rust::says(case) { Said::Answer(said) => said == *answer && answer.number != 32, Said::None => answer.number != 32, _ => false }
}

/// The cases of a call and their answers, as lines, and whether the Rust answers so: all that are worked out, then as many of
/// each kind as wanted
fn chosen(call: Call) -> Vec<(String, String, bool)> {
    let mut taken: BTreeMap<(u64, bool, bool, Option<Way>), usize> = BTreeMap::new();
    let mut lines = Vec::new();
    let mut take = |case: Case, worked: bool| {
        if !worked && !fits(&case) { return; }
        let line = text::case_line(&case);
        let Ok(answer) = comparison::compare(&case) else { comparison::show(&case); exit(1) };
        let way = rust::way(&case);
        let taken = taken.entry((answer.number, answer.values[0] == 0, answer.index == 0, way)).or_default();
        let wanted = if answer.number == 0 { wanted(call, way).0 } else { wanted(call, way).1 };
        let longer = match case { Case::VideoFrameTimesOfMoov { .. } => 300, Case::ReadTable { .. } => 900, _ if answer.number == 2 && *taken == 0 => 7400, _ => 0 };
        if worked || *taken < wanted && line.len() <= LINE + longer {
            *taken += 1;
            lines.push((line, text::answer_line(call, &answer), way != Some(Way::Moved) && by_rust(&case, &answer)));
        }
    };
    for (case, _) in document::worked().into_iter().filter(|(case, _)| case.call() == call) { take(case, true); }
    let mut more = |case: Case| take(case, false);
    tables::too_many_sources(call, &mut more);
    let mut r = Random::of(SEED, 0, call as u64);
    for _ in 0..TURNS { generate::random(call, &mut r, &mut more); }
    lines
}
