//! The box walk, the search in a range, and the search for the MTRM box.

use super::{ MOST_BYTES, Refusal };

/// A box: its type and where its payload starts and ends
#[derive(Clone, Copy)]
pub struct Box {
    pub kind: u32,
    pub start: usize,
    pub end: usize,
}

/// How a walk stops that finds no box
#[derive(Clone, Copy)]
pub enum Stop {
    /// Fewer than 8 bytes are left
    CleanEnd,
    /// The header at this offset
    BadHeader(usize),
}

impl From<Stop> for Refusal {
    fn from(stop: Stop) -> Refusal {
        match stop { Stop::CleanEnd => (31, 0), Stop::BadHeader(at) => (36, at as u64) }
    }
}

/// The code of a type, its four bytes big-endian
pub const fn code(kind: &[u8; 4]) -> u32 { u32::from_be_bytes(*kind) }

/// The number that `count` bytes from `at` make, big-endian; none where they aren't all there
pub fn number(bytes: &[u8], at: usize, count: usize) -> Option<u64> {
    let part = bytes.get(at..)?.get(..count)?;
    Some(part.iter().fold(0, |n, b| n * 256 + *b as u64))
}

/// Size and header of the box at the start of `data`, of which `remaining` bytes are left
fn sized(data: &[u8], remaining: u64) -> Option<(u64, u64)> {
    let (size, header) = match number(data, 0, 4)? {
        0 => (remaining, 8),
        1 => (number(data, 8, 8)?, 16),
        size => (size, 8),
    };
    if header <= size && size <= remaining { Some((size, header)) } else { None }
}

pub fn box_size(data: &[u8], remaining: u64) -> Result<(u64, u64), Refusal> {
    if data.len() > MOST_BYTES { return Err((30, 0)); }
    sized(data, remaining).ok_or((31, 0))
}

/// The box at the start of `bytes[at..to]`; a broken header is one that isn't whole or whose size doesn't fit
fn box_at(bytes: &[u8], at: usize, to: usize) -> Result<Box, Stop> {
    let rest = &bytes[at..to];
    if rest.len() < 8 { return Err(Stop::CleanEnd); }
    let (size, header) = sized(rest, rest.len() as u64).ok_or(Stop::BadHeader(at))?;
    let kind = u32::from_be_bytes([rest[4], rest[5], rest[6], rest[7]]);
    Ok(Box { kind, start: at + header as usize, end: at + size as usize })
}

/// The boxes of `bytes[from..to]` in order, and how the walk stopped after them
fn walked(bytes: &[u8], from: usize, to: usize) -> (Vec<Box>, Stop) {
    let (mut boxes, mut at) = (Vec::new(), from);
    loop {
        match box_at(bytes, at, to) {
            Ok(found) => { boxes.push(found); at = found.end; }
            Err(stop) => return (boxes, stop),
        }
    }
}

/// The boxes of `bytes[from..to]` in order, up to the first that isn't whole
pub fn walk(bytes: &[u8], from: usize, to: usize) -> Vec<Box> { walked(bytes, from, to).0 }

/// The first box of a type in the range; with `text_types` a type with a byte outside 20..7E hex makes a broken header too
fn first(bytes: &[u8], from: usize, to: usize, kind: u32, text_types: bool) -> Result<Box, Stop> {
    let (boxes, stop) = walked(bytes, from, to);
    let mut header = from;
    for found in boxes {
        if text_types && !found.kind.to_be_bytes().iter().all(|b| (0x20..=0x7e).contains(b)) { return Err(Stop::BadHeader(header)); }
        if found.kind == kind { return Ok(found); }
        header = found.end;
    }
    Err(stop)
}

/// The place of a payload: start and length
fn place(found: Box) -> (u64, u64) { (found.start as u64, (found.end - found.start) as u64) }

/// The box at an offset: its type, where its payload lies, and where the next one starts
pub fn children(payload: &[u8], at: u64) -> Result<(u32, u64, u64, u64), Refusal> {
    if payload.len() > MOST_BYTES { return Err((30, 0)); }
    if at > payload.len() as u64 { return Err((42, 0)); }
    let found = box_at(payload, at as usize, payload.len())?;
    let (start, length) = place(found);
    Ok((found.kind, start, length, found.end as u64))
}

pub fn child(payload: &[u8], kind: u32) -> Result<(u64, u64), Refusal> {
    if payload.len() > MOST_BYTES { return Err((30, 0)); }
    Ok(place(first(payload, 0, payload.len(), kind, false)?))
}

pub fn find_box(bytes: &[u8], from: u64, to: u64, kind: u32, text_types: bool) -> Result<(u64, u64), Refusal> {
    if bytes.len() > MOST_BYTES { return Err((30, 0)); }
    if to > bytes.len() as u64 || from > to { return Err((42, 0)); }
    Ok(place(first(bytes, from as usize, to as usize, kind, text_types)?))
}

/// The payload of the one MTRM box of the first udta of the file's moov
pub fn table_text(file: &[u8]) -> Result<(u64, u64), Refusal> {
    if file.len() > MOST_BYTES { return Err((30, 0)); }
    let moov = first(file, 0, file.len(), code(b"moov"), true).map_err(|_| (40, 0))?;
    let udta = first(file, moov.start, moov.end, code(b"udta"), false).map_err(|_| (40, 0))?;
    let mut tables = walk(file, udta.start, udta.end);
    tables.retain(|b| b.kind == code(b"MTRM"));
    match tables.as_slice() {
        [] => Err((40, 0)),
        [one] => Ok(place(*one)),
        _ => Err((41, 0)),
    }
}

/// A payload, all of the bytes or a part of them; the headers in it keep their offsets in the whole
#[derive(Clone, Copy)]
pub struct Payload<'a> {
    whole: &'a [u8],
    start: usize,
    end: usize,
}

impl<'a> Payload<'a> {
    pub fn whole(bytes: &'a [u8]) -> Self { Payload { whole: bytes, start: 0, end: bytes.len() } }
    pub fn bytes(self) -> &'a [u8] { &self.whole[self.start..self.end] }
    fn payload(self, of: Box) -> Self { Payload { start: of.start, end: of.end, ..self } }

    /// The payload of the first child of a type
    pub fn child(self, kind: &[u8; 4]) -> Result<Self, Stop> {
        first(self.whole, self.start, self.end, code(kind), false).map(|found| self.payload(found))
    }

    /// The payloads of all children of a type, and how the walk stopped after them
    pub fn children(self, kind: &[u8; 4]) -> (Vec<Self>, Stop) {
        let (boxes, stop) = walked(self.whole, self.start, self.end);
        (boxes.into_iter().filter(|b| b.kind == code(kind)).map(|b| self.payload(b)).collect(), stop)
    }
}

/// A full box: its version, and what follows the version and flags; it needs 4 bytes
pub fn full_box(payload: &[u8]) -> Option<(u8, &[u8])> {
    if payload.len() < 4 { return None; }
    Some((payload[0], &payload[4..]))
}
