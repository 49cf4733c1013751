//! What the example `broken` says: of stored files; of copies of them that are cut off or damaged, in the moov and outside it; of
//! files and moovs larger than the calls take; and that what isn't there, or is no regular file, is an error.
use std::{
    env,
    fs::{self, File},
    io::{Seek, SeekFrom, Write},
    path::PathBuf,
    process,
};

#[allow(dead_code)]
#[path = "../examples/broken.rs"]
mod broken;

const NO_MOOV: &str = "refused 31, no moov";
const NO_TIMES: &str = "refused 31, no frame times in the moov";

fn stored(name: &str) -> Vec<u8> { fs::read(format!("../../crates/frametimes_files/data/{name}")).unwrap() }

/// A file that is removed again, also where its test fails
struct Temporary(PathBuf);

impl Temporary {
    fn new(name: &str) -> (Temporary, File) {
        let path = env::temp_dir().join(format!("segment_table_{}_{name}", process::id()));
        let file = File::create(&path).unwrap();
        (Temporary(path), file)
    }

    fn said(&self) -> (String, bool) { broken::judge(&self.0).unwrap() }
}

impl Drop for Temporary {
    fn drop(&mut self) { let _ = fs::remove_file(&self.0); }
}

/// What is said of a file of these bytes
fn said(name: &str, bytes: &[u8]) -> (String, bool) {
    let (temporary, mut file) = Temporary::new(name);
    file.write_all(bytes).unwrap();
    temporary.said()
}

#[test]
fn stored_files() {
    assert_eq!(said("m1", &stored("m1")), ("3 frames, timescale 100, end 50".into(), true));
    assert_eq!(said("31", &stored("31")), (NO_MOOV.into(), false));
    let (said, has_times) = said("36", &stored("36"));
    assert!(said.starts_with("refused 36, a broken header at 120 of the file: 00 00 00 ") && said.contains(" 6d 6f 6f 76 "), "{said}");
    assert!(!has_times);
}

/// Offsets of 2.4 seconds in nanoseconds: only by the standard are they not below 0
#[test]
fn a_time_lapse() {
    assert_eq!(said("lapse", &stored("lapse")), ("3 frames, timescale 1000000000, end 3900000000".into(), true));
}

/// Cut off at each byte: a clean end where fewer than 8 bytes of a header are left, else the header that doesn't fit
#[test]
fn cut_off() {
    let file = stored("m1");
    for length in 0..file.len() {
        let (said, _) = said("cut", &file[..length]);
        let expected = match length {
            0..8 | 20..28 => NO_MOOV,
            8..20 => "refused 36, a broken header at 0 of the file:",
            _ => "refused 36, a broken header at 20 of the file:",
        };
        assert!(said.starts_with(expected), "{length}: {said}");
    }
}

/// The offset is that in the file also where the moov is found
#[test]
fn broken_within_the_moov() {
    let mut file = stored("m1");
    let at = file.windows(4).position(|four| four == b"stts").unwrap() - 4;
    file[at..at + 4].fill(0xff);
    let (said, _) = said("stts", &file);
    assert!(said.starts_with(&format!("refused 36, a broken header at {at} of the file: ff ff ff ff 73 74 74 73")), "{said}");
}

/// A moov that has no video track, and one that is empty
#[test]
fn no_frame_times() {
    let mut file = stored("m1");
    let at = file.windows(4).position(|four| four == b"vide").unwrap();
    file[at..at + 4].copy_from_slice(b"soun");
    assert_eq!(said("sound", &file), (NO_TIMES.into(), false));
    assert_eq!(said("empty", b"\0\0\0\x08moov"), (NO_TIMES.into(), false));
}

/// A type that isn't text, in front of the moov
#[test]
fn no_text() {
    let mut file = stored("m1");
    file[7] = 0x1f;
    assert!(said("text", &file).0.starts_with("refused 36, a broken header at 0 of the file:"));
}

/// The header of a box with a 64-bit size
fn wide_header(kind: &[u8; 4], size: u64) -> Vec<u8> { [&1u32.to_be_bytes()[..], kind, &size.to_be_bytes()].concat() }

/// A moov after an mdat of 5 GB, which is a hole in the file
#[test]
fn a_large_file() {
    const MDAT: u64 = 5_000_000_000;
    let m1 = stored("m1");
    let (ftyp, moov) = m1.split_at(20);
    let (temporary, mut file) = Temporary::new("large");
    file.write_all(&[ftyp, &wide_header(b"mdat", MDAT)].concat()).unwrap();
    file.set_len(20 + MDAT).unwrap();
    file.seek(SeekFrom::End(0)).unwrap();
    file.write_all(moov).unwrap();
    assert_eq!(temporary.said(), ("3 frames, timescale 100, end 50".into(), true));
}

/// A moov of as many bytes as the call takes, of one more, and of 5 GB
#[test]
fn a_large_moov() {
    let too_long = "refused 30, over 16,777,216 bytes or timestamps are lent";
    for (length, expected) in [(16_777_216, NO_TIMES), (16_777_217, too_long), (5_000_000_000, too_long)] {
        let (temporary, mut file) = Temporary::new("moov");
        file.write_all(&wide_header(b"moov", 16 + length)).unwrap();
        file.set_len(16 + length).unwrap();
        assert_eq!(temporary.said(), (expected.into(), false), "{length}");
    }
}

#[test]
fn no_file() {
    let missing = env::temp_dir().join(format!("segment_table_{}_missing", process::id()));
    assert!(broken::judge(&missing).is_err());
}

#[test]
fn no_regular_file() {
    let device = cfg!(unix).then(|| PathBuf::from("/dev/null"));
    for path in [env::temp_dir()].into_iter().chain(device) {
        let error = broken::judge(&path).unwrap_err().to_string();
        assert_eq!(error, "not a regular file, but a directory, a pipe or a device", "{path:?}");
    }
}
