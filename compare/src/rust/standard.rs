//! What the unchanged Rust says of frame times by the standard, a mode that it hasn't: it reads every offset of a ctts as signed. Where
//! the ctts lies is found with its own functions.

use oracle::segment_table::reach;
use super::{ Said, frame_times };
use crate::reference::boxes::{ code, number };

/// How the Rust is asked
#[derive(Clone, Copy, Debug, PartialEq, Eq, PartialOrd, Ord)]
pub enum Way {
    /// As it is: no offset of version 0 has its top bit set, so that signed and unsigned are the same
    AsItIs,
    /// With the top bit of every offset cleared. Where all have it, every frame has one, and there is no edit, each time is 2^31
    /// later: without an edit the frames from time 0 on are kept, which all are, and their times stay as they are
    Moved,
    /// Not at all
    NotAtAll,
}

/// An offset's top bit, and how far it moves a time
const TOP: u32 = 1 << 31;

pub fn says(moov: &[u8]) -> Said {
    match way(moov) {
        Way::AsItIs => frame_times(moov),
        Way::Moved => later(frame_times(&cleared(moov))),
        Way::NotAtAll => Said::Silent,
    }
}

/// How the Rust is asked about a moov. Entries of no frames, and those past the frames, count like the others
pub fn way(moov: &[u8]) -> Way {
    let Some(ctts) = table(moov, b"ctts").filter(|ctts| ctts.first() == Some(&0)) else { return Way::AsItIs };
    let has_top = |entry: &Entry| entry.1 & TOP != 0;
    if !entries(ctts).any(|entry| has_top(&entry)) { return Way::AsItIs; }
    let frames = |table| entries(table).map(|entry| entry.0 as u64).sum::<u64>();
    let covered = table(moov, b"stts").is_some_and(|stts| frames(stts) <= frames(ctts));
    if entries(ctts).all(|entry| has_top(&entry)) && is_whole(ctts) && covered && !is_edited(moov) { Way::Moved } else { Way::NotAtAll }
}

/// The first video track
fn video(moov: &[u8]) -> Option<&[u8]> {
    let traks = reach::children(moov).filter(|(kind, ..)| *kind == code(b"trak"));
    let is_video = |trak: &&[u8]| inside(trak, &[b"mdia", b"hdlr"]).is_some_and(|hdlr| hdlr.get(8..12) == Some(b"vide"));
    traks.map(|(_, start, length)| &moov[start as usize..(start + length) as usize]).find(is_video)
}

/// The payload that is reached over the first child of each type
fn inside<'a>(payload: &'a [u8], kinds: &[&[u8; 4]]) -> Option<&'a [u8]> { kinds.iter().try_fold(payload, |payload, kind| reach::child(payload, kind)) }

/// The payload of the video track's stts or ctts
fn table<'a>(moov: &'a [u8], kind: &[u8; 4]) -> Option<&'a [u8]> { inside(video(moov)?, &[b"mdia", b"minf", b"stbl", kind]) }

/// How many frames, and the duration or offset of each
type Entry = (u32, u32);

/// How many entries a table says it has
fn count(table: &[u8]) -> usize { number(table, 4, 4).unwrap_or(0) as usize }

/// The entries of a table, as far as they are there
fn entries(table: &[u8]) -> impl Iterator<Item = Entry> {
    let word = |bytes: &[u8; 8], at: usize| u32::from_be_bytes([bytes[at], bytes[at + 1], bytes[at + 2], bytes[at + 3]]);
    table.get(8..).unwrap_or_default().as_chunks().0.iter().take(count(table)).map(move |entry| (word(entry, 0), word(entry, 4)))
}

fn is_whole(table: &[u8]) -> bool { entries(table).count() == count(table) }

/// Whether there is an edit list with an entry, or one that says not how many
fn is_edited(moov: &[u8]) -> bool {
    video(moov).and_then(|trak| inside(trak, &[b"edts", b"elst"])).is_some_and(|elst| number(elst, 4, 4) != Some(0))
}

/// The moov with the top bit of every offset cleared
fn cleared(moov: &[u8]) -> Vec<u8> {
    let mut copy = moov.to_vec();
    let Some(ctts) = table(moov, b"ctts") else { return copy };
    let first = ctts.as_ptr() as usize - moov.as_ptr() as usize + 8;
    for entry in copy[first..].as_chunks_mut::<8>().0.iter_mut().take(count(ctts)) { entry[4] &= 0x7f; }
    copy
}

/// The answer with every start and the end 2^31 later
fn later(mut said: Said) -> Said {
    if let Said::Answer(times) = &mut said {
        for start in &mut times.longs { *start += TOP as i64; }
        times.values[3] += TOP as i128;
    }
    said
}
