//! Movies of one video track, and their frame times in both modes.
use segment_table::{video_frame_times_of_moov, FrameTimes, Refusal};

/// The two modes: composition offsets as the crate reads them, and as the standard does.
pub const CRATE: bool = false;
pub const STANDARD: bool = true;

/// What both modes answer, where that is the same.
#[track_caller]
pub fn in_both_modes(moov: &[u8]) -> Result<FrameTimes, Refusal> {
    let times = video_frame_times_of_moov(moov, CRATE);
    assert_eq!(video_frame_times_of_moov(moov, STANDARD), times);
    times
}

/// A box of a type with a payload.
pub fn boxed(kind: &[u8; 4], payload: &[u8]) -> Vec<u8> {
    [&(payload.len() as u32 + 8).to_be_bytes(), &kind[..], payload].concat()
}

/// A full box of 32-bit words after its version and flags.
pub fn full(kind: &[u8; 4], version: u8, words: &[u32]) -> Vec<u8> {
    let head = u32::from(version) << 24;
    boxed(kind, &[head].iter().chain(words).flat_map(|w| w.to_be_bytes()).collect::<Vec<_>>())
}

/// A table of entries: how many frames each is for, and their value.
pub fn table(kind: &[u8; 4], version: u8, entries: &[(u32, u32)]) -> Vec<u8> {
    let words = entries.iter().flat_map(|&(count, value)| [count, value]);
    full(kind, version, &[entries.len() as u32].into_iter().chain(words).collect::<Vec<_>>())
}

/// A moov of one video track: how many frames of which duration, then its ctts and its edts, each a box or nothing.
pub fn moov(scale: u32, frames: (u32, u32), ctts: &[u8], edts: &[u8]) -> Vec<u8> {
    let stbl = boxed(b"stbl", &[&table(b"stts", 0, &[frames]), ctts].concat());
    let hdlr = full(b"hdlr", 0, &[0, u32::from_be_bytes(*b"vide")]);
    let mdia = boxed(b"mdia", &[full(b"mdhd", 0, &[0, 0, scale]), hdlr, boxed(b"minf", &stbl)].concat());
    [full(b"mvhd", 0, &[0, 0, 100]), boxed(b"trak", &[&mdia, edts].concat())].concat()
}

/// Where the box of a type starts.
pub fn place(moov: &[u8], kind: &[u8; 4]) -> usize {
    moov.windows(4).position(|found| found == kind).unwrap() - 4
}
