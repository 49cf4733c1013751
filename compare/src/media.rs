//! Real files: the frame times of each, by the Rust, by the library, and by ffprobe; then what is said of their damaged copies.

mod damaged;

use std::{ fs, io, path::Path, process::Command };
use crate::{ case::{ Answer, Case }, comparison, generate::boxes::{ Form, boxed }, ours, reference::boxes::{ code, walk }, rust::{ self, Way } };

/// Compares every file of a folder and prints a table, and one of damaged copies; whether the library and the Rust agree on all
pub fn compare(folder: &Path) -> io::Result<bool> {
    with_a_wide_moov(folder)?;
    println!("| file | what it is | frames | timescale | nominal | end | {} | ffprobe's packets | ffprobe's frames |", if ours::LINKED { "library and Rust" } else { "Rust" });
    println!("|---|---|---:|---:|---:|---:|---|---|---|");
    let mut agreed = true;
    let files = files(folder)?;
    for (name, what) in &files { agreed &= lines(folder, name, what)?; }
    println!();
    let mut copies = damaged::Damages::default();
    for (name, _) in &files { agreed &= copies.take(name, fs::read(folder.join(name))?); }
    copies.print();
    Ok(agreed)
}

/// The files of a folder, and what each is: those that compare/media lists there, in its order; without a list all, by name
fn files(folder: &Path) -> io::Result<Vec<(String, String)>> {
    if let Ok(list) = fs::read_to_string(folder.join("files")) {
        return Ok(list.lines().filter_map(|l| l.split_once('\t')).map(|(name, what)| (name.into(), what.into())).collect());
    }
    let mut names = Vec::new();
    for entry in fs::read_dir(folder)? { names.push(entry?.file_name().to_string_lossy().into_owned()); }
    names.retain(|name| name.ends_with(".mp4") || name.ends_with(".mov"));
    names.sort();
    Ok(names.into_iter().map(|name| (name, String::new())).collect())
}

/// The line of a file in the standard's mode, which `frametimes` asks in; where the crate's mode answers otherwise, a line for each.
/// Whether all agree, and both modes do where no offset of version 0 has its top bit
fn lines(folder: &Path, name: &str, what: &str) -> io::Result<bool> {
    let (path, file) = (folder.join(name), fs::read(folder.join(name))?);
    let probed = Probed { packets: probe(&path, PACKETS)?, frames: probe(&path, FRAMES)? };
    let (Some(by_standard), Some(signed)) = (answered(&file, true), answered(&file, false)) else {
        println!("| `{name}` | {what} | | | | | differ | | |");
        return Ok(false);
    };
    if by_standard.answer == signed.answer {
        println!("| `{name}` | {what} | {} |", cells(&by_standard, &probed));
        return Ok(true);
    }
    println!("| `{name}`, in the standard's mode | {what} | {} |", cells(&by_standard, &probed));
    println!("| `{name}`, in the crate's mode | {what} | {} |", cells(&signed, &probed));
    Ok(by_standard.way != Some(Way::AsItIs))
}

/// ffprobe's times of a file
struct Probed { packets: Vec<i64>, frames: Vec<i64> }

/// The cells of a line after the file
fn cells(seen: &Seen, probed: &Probed) -> String {
    let said = match seen.way {
        None | Some(Way::AsItIs) => "same",
        Some(Way::Moved) => "same, the Rust's moved by 2^31",
        Some(Way::NotAtAll) => "the Rust isn't asked",
    };
    let answer = &seen.answer;
    if answer.number != 0 {
        return format!("| | | | {said}, refused {} | {} packets | {} frames", answer.number, probed.packets.len(), probed.frames.len());
    }
    let [count, scale, nominal, end, _] = answer.values;
    let [packets, frames] = [&probed.packets, &probed.frames].map(|times| beside(&answer.longs, times));
    format!("{count} | {scale} | {nominal} | {end} | {said} | {packets} | {frames}")
}

/// What is said of a file
struct Seen {
    answer: Answer,
    /// Where the payload of its moov starts; none where the answer is that of the search for it
    moov: Option<usize>,
    /// How the Rust is asked about its moov in the standard's mode
    way: Option<Way>,
}

/// What the Rust, the reading of the rules and the library say of a file's moov, or of the search for it; none where they
/// differ. A search in a file of over 16,777,216 bytes is refused; its moov is judged all the same
fn answered(file: &[u8], standard: bool) -> Option<Seen> {
    let place = agreed(&Case::FindBox { bytes: file.to_vec(), from: 0, to: file.len() as u64, kind: code(b"moov"), text_types: true })?;
    let moov = match place.number {
        0 => place.values[0] as usize..(place.values[0] + place.values[1]) as usize,
        30 => match walk(file, 0, file.len()).iter().find(|b| b.kind == code(b"moov")) {
            Some(moov) => moov.start..moov.end,
            None => return Some(Seen { answer: place, moov: None, way: None }),
        },
        _ => return Some(Seen { answer: place, moov: None, way: None }),
    };
    let bytes = file[moov.clone()].to_vec();
    let room = [bytes.len(); 3];
    let case = Case::VideoFrameTimesOfMoov { moov: bytes, standard, room };
    Some(Seen { answer: agreed(&case)?, moov: Some(moov.start), way: rust::way(&case) })
}

/// What all say of a case; one of which they differ is printed
fn agreed(case: &Case) -> Option<Answer> { comparison::compare(case).map_err(|_| comparison::show(case)).ok() }

/// How our starts stand beside ffprobe's times
fn beside(starts: &[i64], times: &[i64]) -> String {
    if starts == times { return "same".into(); }
    let first = starts.iter().zip(times).position(|(a, b)| a != b);
    match first {
        None => format!("{} there, {} here", times.len(), starts.len()),
        Some(k) if starts.len() == times.len() && starts.iter().zip(times).all(|(a, b)| a - b == starts[k] - times[k]) => format!("all later by {} there", times[k] - starts[k]),
        Some(k) => format!("frame {k} at {} there, at {} here ({} there, {} here)", times[k], starts[k], times.len(), starts.len()),
    }
}

const PACKETS: &str = "packet=pts,flags";
const FRAMES: &str = "frame=pts";

/// The presentation times of packets or frames, ascending; packets that are to be discarded are left out
fn probe(path: &Path, entries: &str) -> io::Result<Vec<i64>> {
    let out = Command::new("ffprobe").args(["-v", "error", "-select_streams", "v:0", "-of", "csv=p=0", "-show_entries", entries]).arg(path).output()?;
    if !out.status.success() { return Err(io::Error::other(format!("ffprobe: {}", String::from_utf8_lossy(&out.stderr)))); }
    let text = String::from_utf8_lossy(&out.stdout);
    let lines = text.lines().filter(|l| !l.split(',').nth(1).is_some_and(|flags| flags.contains('D')));
    let mut times: Vec<i64> = lines.filter_map(|l| l.split(',').next()?.parse().ok()).collect();
    times.sort();
    Ok(times)
}

/// Writes a copy of one of compare/media's files, where it is there, whose moov, its last box, has a 64-bit size
fn with_a_wide_moov(folder: &Path) -> io::Result<()> {
    let path = folder.join("b-frames-edit-list.mp4");
    if !path.exists() { return Ok(()); }
    let file = fs::read(path)?;
    let last = *walk(&file, 0, file.len()).last().ok_or(io::ErrorKind::InvalidData)?;
    let moov = boxed(Form::Long, b"moov", &file[last.start..last.end]);
    fs::write(folder.join("moov-in-a-64-bit-box.mp4"), [&file[..last.start - 8], &moov].concat())
}
