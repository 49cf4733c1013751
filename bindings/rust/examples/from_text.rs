//! Says of a frame of a trimmed or joined file which camera original lies behind it, by its name, and which frame of it:
//! `cargo run --example from_text -- FILE FRAME`.
use segment_table::{box_size, table_text, Table, TableText};
use std::{
    env,
    error::Error,
    fs::{self, File},
    io::{self, Read, Seek, SeekFrom, Write},
    path::Path,
    process::ExitCode,
};

/// What is read of a moov box at most: a byte more than `table_text` takes, which then refuses with 30.
const MOST_READ: u64 = 16_777_217;

/// A file, opened. Others are told apart before, as a pipe can't be opened without waiting for its writer.
fn open(path: &Path) -> io::Result<File> {
    if !fs::metadata(path)?.is_file() {
        return Err(io::Error::other("not a regular file, but a directory, a pipe or a device"));
    }
    File::open(path)
}

/// So many bytes of a file from an offset on, or as many as there are.
fn read(file: &mut File, at: u64, count: u64) -> io::Result<Vec<u8>> {
    let mut bytes = Vec::new();
    file.seek(SeekFrom::Start(at))?;
    file.take(count).read_to_end(&mut bytes)?;
    Ok(bytes)
}

/// The first moov box of a file, which holds its table; of a file without one, or with a broken header before it, nothing.
/// The boxes before it are stepped over, as a video may be larger than memory.
fn moov(file: &mut File) -> io::Result<Vec<u8>> {
    let end = file.metadata()?.len();
    let mut at = 0;
    while at + 8 <= end {
        let head = read(file, at, 16)?;
        let text = head.len() >= 8 && head[4..8].iter().all(|byte| (0x20..=0x7e).contains(byte));
        match box_size(&head, end - at) {
            Ok(size) if text && head[4..8] == *b"moov" => return read(file, at, size.size.min(MOST_READ)),
            Ok(size) if text => at += size.size,
            _ => break,
        }
    }
    Ok(Vec::new())
}

/// What is said of a frame of a file, or why nothing can be.
pub fn told(path: &Path, frame: u64) -> Result<String, Box<dyn Error>> {
    let moov = moov(&mut open(path)?)?;
    let TableText { table, names } = Table::from_json(table_text(&moov)?)?;
    let origin = table.map().origin(frame)?;
    let name = &names[origin.source as usize];
    Ok(format!("frame {frame} is frame {} of {name}", origin.frame))
}

fn main() -> ExitCode {
    let words: Vec<_> = env::args_os().skip(1).collect();
    let [path, frame] = &words[..] else {
        eprintln!("usage: from_text FILE FRAME");
        return ExitCode::FAILURE;
    };
    let Some(number) = frame.to_str().and_then(|frame| frame.parse().ok()) else {
        eprintln!("from_text: {frame:?} is no frame number");
        return ExitCode::FAILURE;
    };
    let path = Path::new(path);
    let written = told(path, number).and_then(|said| Ok(writeln!(io::stdout(), "{said}")?));
    if let Err(error) = written {
        eprintln!("{}: {error}", path.display());
        return ExitCode::FAILURE;
    }
    ExitCode::SUCCESS
}
