//! Says of each file whether its frame times can be read, and if not, what is missing or where it is broken:
//! `cargo run --example broken -- FILE..`
use segment_table::{box_size, video_frame_times_of_moov, Refusal};
use std::{
    env,
    fs::{self, File},
    io::{self, Read, Seek, SeekFrom},
    path::{Path, PathBuf},
    process::ExitCode,
};

/// The refusal of what isn't there, and of a broken header before it.
const MISSING: u64 = 31;
const BROKEN: u64 = 36;

/// What is read of a moov at most: a byte more than the call takes, which then refuses with 30.
const MOST_READ: u64 = 16_777_217;

/// A file, opened. Others are told apart before, as a pipe can't be opened without waiting for its writer.
fn open(path: &Path) -> io::Result<File> {
    if !fs::metadata(path)?.is_file() {
        return Err(io::Error::other("not a regular file, but a directory, a pipe or a device"));
    }
    File::open(path)
}

/// So many bytes of a file from an offset on, or as many as there are.
fn read(file: &mut File, at: u64, count: u64) -> io::Result<Vec<u8>> {
    let mut bytes = Vec::new();
    file.seek(SeekFrom::Start(at))?;
    file.take(count).read_to_end(&mut bytes)?;
    Ok(bytes)
}

/// Where the payload of a file's first moov lies: start and length. It answers as `find_box` does; its headers are read one by one, since a file
/// may be larger than that call takes.
fn find_moov(file: &mut File) -> io::Result<Result<(u64, u64), Refusal>> {
    let end = file.metadata()?.len();
    let mut at = 0;
    while at + 8 <= end {
        let head = read(file, at, 16)?;
        if head.len() < 8 {
            return Err(io::ErrorKind::UnexpectedEof.into());
        }
        let text = head[4..8].iter().all(|byte| (0x20..=0x7e).contains(byte));
        match box_size(&head, end - at) {
            Ok(size) if text && head[4..8] == *b"moov" => return Ok(Ok((at + size.header, size.size - size.header))),
            Ok(size) if text => at += size.size,
            _ => return Ok(Err(Refusal { number: BROKEN, index: at })),
        }
    }
    Ok(Err(Refusal { number: MISSING, index: 0 }))
}

/// What is said of a refusal, whose index is an offset in the file; where something is missing, what.
fn refused(file: &mut File, refusal: Refusal, missing: &str) -> io::Result<String> {
    let Refusal { number, index } = refusal;
    Ok(match number {
        MISSING => format!("refused {number}, {missing}"),
        BROKEN => {
            let head: String = read(file, index, 16)?.iter().map(|byte| format!(" {byte:02x}")).collect();
            format!("refused {number}, a broken header at {index} of the file:{head}")
        }
        _ => format!("refused {number}, {}", refusal.words()),
    })
}

/// What is said of a file, and whether it has frame times.
pub fn judge(path: &Path) -> io::Result<(String, bool)> {
    let mut file = open(path)?;
    let (start, length) = match find_moov(&mut file)? {
        Ok(place) => place,
        Err(refusal) => return Ok((refused(&mut file, refusal, "no moov")?, false)),
    };
    let moov = read(&mut file, start, length.min(MOST_READ))?;
    // composition offsets by the standard, as the program frametimes reads them
    Ok(match video_frame_times_of_moov(&moov, true) {
        Ok(times) => (format!("{} frames, timescale {}, end {}", times.starts.len(), times.scale, times.end), true),
        Err(Refusal { number, index }) => {
            let in_file = Refusal { number, index: start + index };
            (refused(&mut file, in_file, "no frame times in the moov")?, false)
        }
    })
}

fn main() -> ExitCode {
    if env::args_os().len() < 2 {
        eprintln!("usage: broken FILE..");
        return ExitCode::FAILURE;
    }
    let mut whole = true;
    for path in env::args_os().skip(1).map(PathBuf::from) {
        let (said, has_times) = judge(&path).unwrap_or_else(|error| (error.to_string(), false));
        println!("{}: {said}", path.display());
        whole &= has_times;
    }
    ExitCode::from(u8::from(!whole))
}
