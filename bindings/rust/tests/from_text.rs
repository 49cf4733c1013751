//! What the example `from_text` says of built files: small ones, a large one, and those that have no table, two, or a broken one.
#[allow(dead_code)]
#[path = "../examples/from_text.rs"]
mod from_text;
#[allow(dead_code)]
mod movie;

use movie::{boxed, moov};
use segment_table::{Segment, Source, Table};
use std::{
    env,
    fs::{self, File},
    io::{Seek, SeekFrom, Write},
    process,
};

/// The table T of RULES 3.6 as a text: 30 frames of one clip, then 20 of another.
fn text() -> String {
    let source = |frames| Source { frames, fps: (25, 1), ..Source::default() };
    let first = Segment { src_first_frame: 10, frame_count: 30, duration_us: 1_200_000, ..Segment::default() };
    let second = Segment {
        source: 1, src_first_frame: 5, frame_count: 20, out_first_frame: 30,
        out_start_us: 1_200_000, duration_us: 800_000, ..Segment::default()
    };
    Table::new(&[source(100), source(50)], &[first, second], false).unwrap().to_json(&["C0538.MP4", "C0539 \"b\".MP4"])
}

/// A file with some MTRM boxes beside its video track.
fn file(texts: &[&str]) -> Vec<u8> {
    let tables: Vec<u8> = texts.iter().flat_map(|text| boxed(b"MTRM", text.as_bytes())).collect();
    let movie = [moov(25, (50, 1), b"", b""), boxed(b"udta", &tables)].concat();
    [boxed(b"ftyp", b"isom\0\0\0\0"), boxed(b"mdat", b"MTRM"), boxed(b"moov", &movie)].concat()
}

/// What is said of a frame of a file of these bytes; the file is removed again.
fn said(name: &str, bytes: &[u8], frame: u64) -> Result<String, String> {
    let path = env::temp_dir().join(format!("segment_table_{}_{name}.mp4", process::id()));
    fs::write(&path, bytes).unwrap();
    let said = from_text::told(&path, frame).map_err(|error| error.to_string());
    fs::remove_file(&path).unwrap();
    said
}

#[test]
fn frames_by_their_clips_names() {
    let file = file(&[&text()]);
    assert_eq!(said("first", &file, 29).unwrap(), "frame 29 is frame 39 of C0538.MP4");
    assert_eq!(said("second", &file, 30).unwrap(), "frame 30 is frame 5 of C0539 \"b\".MP4");
    assert!(said("past", &file, 50).unwrap_err().starts_with("refused 54 at 0:"));
}

/// The clip of README.md, 'From a file to an answer'.
#[test]
fn the_sample() {
    let text = include_str!("../examples/clip.json");
    assert_eq!(said("sample", &file(&[text]), 30).unwrap(), "frame 30 is frame 5 of C0539.MP4");
}

/// The moov after an mdat of 5 GB, which is a hole in the file.
#[test]
fn a_large_file() {
    const MDAT: u64 = 5_000_000_000;
    let path = env::temp_dir().join(format!("segment_table_{}_large.mp4", process::id()));
    let mut large = File::create(&path).unwrap();
    large.write_all(&[&1u32.to_be_bytes()[..], b"mdat", &MDAT.to_be_bytes()].concat()).unwrap();
    large.set_len(MDAT).unwrap();
    large.seek(SeekFrom::End(0)).unwrap();
    large.write_all(&file(&[&text()])).unwrap();
    let said = from_text::told(&path, 49);
    fs::remove_file(&path).unwrap();
    assert_eq!(said.unwrap(), "frame 49 is frame 24 of C0539 \"b\".MP4");
}

#[test]
fn no_table() {
    let text = text();
    assert!(said("none", &file(&[]), 0).unwrap_err().starts_with("refused 40 at 0:"));
    assert!(said("two", &file(&[&text, &text]), 0).unwrap_err().starts_with("refused 41 at 0:"));
    assert!(said("torn", &file(&[&text[..text.len() - 3]]), 0).unwrap_err().starts_with("refused 61 at 0:"));
    assert!(said("version", &file(&[&text.replace("\"version\":1", "\"version\":2")]), 0).unwrap_err().starts_with("refused 63 at 0:"));
    assert!(said("empty", b"", 0).unwrap_err().starts_with("refused 40 at 0:"));
    assert!(said("broken", &[&[0; 8][..], &file(&[&text])].concat(), 0).unwrap_err().starts_with("refused 40 at 0:"));
    assert!(from_text::told(&env::temp_dir(), 0).is_err());
}
