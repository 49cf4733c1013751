//! Copies of files that are cut short, or have a size overwritten, and what is then answered of them, as a table for support.

use std::{ cmp::Ordering, collections::BTreeMap, ops::Range };
use super::{ Seen, answered };
use crate::{ case::Answer, reference::{ MOST_BYTES, boxes::{ Payload, code, number, walk }, frame_times::is_video } };

/// A header of a file, and what it is the header of
struct Header {
    at: usize,
    payload: Range<usize>,
    /// Where its level ends
    level_end: usize,
    kind: String,
    /// Where it is, for the table
    place: String,
    in_moov: bool,
}

/// The boxes that hold boxes, and those that each must have; of tracks, the first video's
const CONTAINERS: [(&str, &[&str]); 7] =
    [("moov", &["mvhd", "trak"]), ("trak", &["mdia"]), ("mdia", &["mdhd", "hdlr", "minf"]), ("minf", &["stbl"]), ("stbl", &["stts"]), ("edts", &[]), ("udta", &[])];

const ELSEWHERE: &str = "elsewhere in the `moov`: another track, `udta`, ..";

/// What is inside a box or a file: where it lies, in which box (none of a file), and whether that is in another track
struct Inside { range: Range<usize>, of: Option<&'static str>, elsewhere: bool }

/// The headers of a file at the top level and, along the containers, in its moov
fn headers(file: &[u8]) -> Vec<Header> {
    let mut all = Vec::new();
    list(file, Inside { range: 0..file.len(), of: None, elsewhere: false }, &mut all);
    all
}

fn list(file: &[u8], inside: Inside, all: &mut Vec<Header>) {
    let boxes = walk(file, inside.range.start, inside.range.end);
    let kinds: Vec<String> = boxes.iter().map(|b| b.kind.to_be_bytes().escape_ascii().to_string()).collect();
    let video = boxes.iter().position(|b| b.kind == code(b"trak") && is_video(&Payload::whole(&file[b.start..b.end])));
    let moov = kinds.iter().position(|kind| kind == "moov");
    let mut at = inside.range.start;
    for (k, found) in boxes.iter().enumerate() {
        let place = match inside.of {
            None => match k.cmp(&moov.unwrap_or(kinds.len())) { Ordering::Less => "before the `moov`", Ordering::Equal => "the `moov`", Ordering::Greater => "after the `moov`" }.into(),
            Some(_) if inside.elsewhere => ELSEWHERE.into(),
            Some(of) => place(of, &kinds, k, video),
        };
        let payload = found.start..found.end;
        all.push(Header { at, payload: payload.clone(), level_end: inside.range.end, kind: kinds[k].clone(), place, in_moov: inside.of.is_some() });
        let container = CONTAINERS.iter().find(|(kind, _)| *kind == kinds[k]).filter(|_| inside.of.is_some() || Some(k) == moov);
        let elsewhere = inside.elsewhere || kinds[k] == "trak" && Some(k) != video;
        if let Some((of, _)) = container { list(file, Inside { range: payload, of: Some(of), elsewhere }, all); }
        at = found.end;
    }
}

/// Where box `k` of a level in the moov is: one that is required, one before it, or one after all of them
fn place(of: &str, kinds: &[String], k: usize, video: Option<usize>) -> String {
    let required = CONTAINERS.iter().find(|(kind, _)| *kind == of).map_or(&[][..], |(_, required)| required);
    let first = |kind: &str| if kind == "trak" { video } else { kinds.iter().position(|other| other == kind) };
    if let Some(kind) = required.iter().find(|kind| first(kind) == Some(k)) {
        return match *kind { "mvhd" => "the `mvhd`", "trak" => "the video's `trak`", "mdia" | "mdhd" | "hdlr" => "the video's `mdia`, `mdhd` or `hdlr`", _ => "the video's `minf`, `stbl` or `stts`" }.into();
    }
    match (required.iter().find(|kind| first(kind) > Some(k)), of) {
        (Some(kind), _) => format!("in the `{of}`, before its `{kind}`"),
        (None, "moov" | "trak" | "udta") => ELSEWHERE.into(),
        (None, "edts") => "in the `edts`".into(),
        (None, _) => format!("in the `{of}`, after what it must have"),
    }
}

/// A damaged copy: how and where it is damaged, for the table, and its bytes
struct Damaged { how: &'static str, place: String, bytes: Vec<u8> }

const CUT: &str = "cut";
const OVERWRITTEN: &str = "size overwritten";

/// The copies of a file that are damaged at a header: cut at its start, within it, and within what it is the header of; its size
/// overwritten by one that is too large, and by one that is too small
fn copies(file: &[u8], header: &Header) -> Vec<Damaged> {
    let wide = header.payload.start - header.at == 16;
    let middle = header.payload.start + header.payload.len() / 2;
    let mut cuts = vec![(header.at, "at its start or within its header"), (header.at + 4, "at its start or within its header")];
    if wide { cuts.push((header.at + 12, "at its start or within its header")); }
    if !header.payload.is_empty() { cuts.push((middle, "within its payload")); }
    let cut = |(at, part): (usize, &str)| {
        let place = if header.in_moov { "the `moov`: within its payload".into() } else { format!("{}: {part}", header.place) };
        Damaged { how: CUT, place, bytes: file[..at].to_vec() }
    };
    let (at, width) = if wide { (header.at + 8, 8) } else { (header.at, 4) };
    let overwritten = |size: u64| {
        let mut bytes = file.to_vec();
        bytes[at..at + width].copy_from_slice(&size.to_be_bytes()[8 - width..]);
        Damaged { how: OVERWRITTEN, place: header.place.clone(), bytes }
    };
    cuts.into_iter().map(cut).chain([u64::MAX, 7].map(overwritten)).collect()
}

/// Whether what is left of a level begins with a broken header: 8 bytes that aren't whole, or of a size that doesn't fit, or at the top
/// level of a type that isn't text
fn is_bad(left: &[u8], top: bool) -> bool {
    let fits = match number(left, 0, 4) {
        Some(0) => true,
        Some(1) => number(left, 8, 8).is_some_and(|size| (16..=left.len() as u64).contains(&size)),
        Some(size) => (8..=left.len() as u64).contains(&size),
        None => false,
    };
    left.len() >= 8 && (!fits || top && left[4..8].iter().any(|byte| !(0x20..=0x7e).contains(byte)))
}

/// What was seen of the copies that are damaged alike, and what the index of 36 is that of
#[derive(Default)]
struct Row { copies: usize, seen: BTreeMap<String, usize>, named: BTreeMap<String, usize> }

/// The place of all damage in a file that is refused before it is damaged
const ANYWHERE: &str = "anywhere in a file that is";

/// The rows, by how and where the copies are damaged, in the order in which they came
#[derive(Default)]
pub struct Damages(Vec<(&'static str, String, Row)>);

impl Damages {
    /// Damages a file at each header; whether all agree on every copy, and each index of 36 is that of a broken header. Of a file that
    /// is too large to search, the moov alone is damaged
    pub fn take(&mut self, name: &str, mut file: Vec<u8>) -> bool {
        if file.len() > MOST_BYTES {
            let moov = headers(&file).into_iter().find(|header| header.kind == "moov");
            file = moov.map_or(vec![], |moov| file[moov.at..moov.payload.end].to_vec());
            if file.len() > MOST_BYTES { return true; }
        }
        let Some(whole) = answered(&file, true) else { return false };
        let headers = headers(&file);
        let mut agreed = true;
        for header in &headers {
            for mut copy in copies(&file, header) {
                if whole.answer.number != 0 { copy.place = format!("{ANYWHERE} {} whole", whole.answer.number); }
                let counted = answered(&copy.bytes, true).and_then(|seen| self.count(&copy, &seen, &whole.answer, header.at, &headers));
                if counted.is_none() { println!("{name}: {}, {}, at {}: differs", copy.how, copy.place, header.at); }
                agreed &= counted.is_some();
            }
        }
        agreed
    }

    /// Counts a copy, which is damaged at an offset; none where 36 names no broken header
    fn count(&mut self, copy: &Damaged, seen: &Seen, whole: &Answer, damaged: usize, headers: &[Header]) -> Option<()> {
        let named = if seen.answer.number == 36 { Some(named(copy, seen, damaged, headers)?) } else { None };
        let row = self.row(copy);
        row.copies += 1;
        let said = match seen.answer.number {
            0 if seen.answer == *whole => "accepted, the same times".into(),
            0 => "accepted, other times".into(),
            number => number.to_string(),
        };
        *row.seen.entry(said).or_default() += 1;
        if let Some(named) = named { *row.named.entry(named).or_default() += 1; }
        Some(())
    }

    fn row(&mut self, copy: &Damaged) -> &mut Row {
        let found = self.0.iter().position(|(how, place, _)| *how == copy.how && *place == copy.place);
        let k = found.unwrap_or_else(|| { self.0.push((copy.how, copy.place.clone(), Row::default())); self.0.len() - 1 });
        &mut self.0[k].2
    }

    pub fn print(&mut self) {
        self.0.sort_by_key(|(how, place, _)| (*how, place.starts_with(ANYWHERE)));
        println!("| damage | where | copies | what is answered | the index of 36 is that of |\n|---|---|---:|---|---|");
        let counts = |of: &BTreeMap<String, usize>| of.iter().map(|(what, times)| format!("{what} × {times}")).collect::<Vec<_>>().join("; ");
        for (how, place, row) in &self.0 { println!("| {how} | {place} | {} | {} | {} |", row.copies, counts(&row.seen), counts(&row.named)); }
        println!("\n{} damaged copies", self.0.iter().map(|(.., row)| row.copies).sum::<usize>());
    }
}

/// The header that 36 names in a copy, which is damaged at an offset; none where that is no header, or isn't bad
fn named(copy: &Damaged, seen: &Seen, damaged: usize, headers: &[Header]) -> Option<String> {
    let at = seen.moov.unwrap_or(0) + seen.answer.index as usize;
    let header = headers.iter().find(|header| header.at == at)?;
    let left = &copy.bytes[at..header.level_end.min(copy.bytes.len())];
    if !is_bad(left, seen.moov.is_none()) { return None; }
    Some(if at == damaged && copy.how == OVERWRITTEN { "that header itself".into() } else { format!("the `{}`", header.kind) })
}
