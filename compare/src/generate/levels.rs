//! Boxes as a tree, whose headers are torn at every place and depth, or at one of them.

use super::boxes::{ Form, boxed };
use crate::{ random::Random, reference::boxes::walk };

/// A piece of a level: a box and what is in it, or bytes as they stand
#[derive(Clone)]
pub enum Piece { Boxed { form: Form, kind: [u8; 4], inside: Level }, Bytes(Vec<u8>) }

/// What a payload, or a file, consists of
pub type Level = Vec<Piece>;

/// A box of boxes, and one of bytes
pub fn around(kind: &[u8; 4], inside: Level) -> Piece { Piece::Boxed { form: Form::Short, kind: *kind, inside } }
pub fn leaf(kind: &[u8; 4], payload: &[u8]) -> Piece { around(kind, vec![Piece::Bytes(payload.to_vec())]) }

pub fn written(level: &[Piece]) -> Vec<u8> {
    level.iter().flat_map(|piece| match piece {
        Piece::Boxed { form, kind, inside } => boxed(*form, kind, &written(inside)),
        Piece::Bytes(bytes) => bytes.clone(),
    }).collect()
}

/// The level with 32-bit sizes, with 64-bit ones, and with the last box of each level of size 0
pub fn in_every_form(level: &[Piece]) -> [Level; 3] {
    [formed(level, |_| Form::Short), formed(level, |_| Form::Long), formed(level, |last| if last { Form::ToTheEnd } else { Form::Short })]
}

/// The level with each box in a form, which may depend on whether it is the last
fn formed(level: &[Piece], form: fn(bool) -> Form) -> Level {
    level.iter().enumerate().map(|(k, piece)| match piece {
        Piece::Boxed { kind, inside, .. } => Piece::Boxed { form: form(k + 1 == level.len()), kind: *kind, inside: formed(inside, form) },
        bytes => bytes.clone(),
    }).collect()
}

/// The level with another box before each box and at the end, at every depth
pub fn among_others(level: &[Piece]) -> Level {
    if !level.iter().any(|piece| matches!(piece, Piece::Boxed { .. })) { return level.to_vec(); }
    let other = || Piece::Boxed { form: Form::Long, kind: *b"free", inside: vec![Piece::Bytes(vec![9; 3])] };
    let after_one = |piece: &Piece| match piece {
        Piece::Boxed { kind, inside, .. } => vec![other(), around(kind, among_others(inside))],
        bytes => vec![bytes.clone()],
    };
    level.iter().flat_map(after_one).chain([other()]).collect()
}

/// The level backwards, at every depth
pub fn backwards(level: &[Piece]) -> Level {
    level.iter().rev().map(|piece| match piece {
        Piece::Boxed { kind, inside, .. } => around(kind, backwards(inside)),
        bytes => bytes.clone(),
    }).collect()
}

/// The level with another payload in the boxes of a type, at every depth
pub fn with_payload(level: &[Piece], of: &[u8; 4], payload: &[u8]) -> Level {
    level.iter().map(|piece| match piece {
        Piece::Boxed { kind, .. } if kind == of => leaf(kind, payload),
        Piece::Boxed { kind, inside, .. } => around(kind, with_payload(inside, of, payload)),
        bytes => bytes.clone(),
    }).collect()
}

fn narrow(size: u64, kind: &[u8; 4]) -> Vec<u8> { [&(size as u32).to_be_bytes()[..], kind].concat() }
fn wide(size: u64, kind: &[u8; 4]) -> Vec<u8> { [&1u32.to_be_bytes()[..], kind, &size.to_be_bytes()].concat() }

/// Headers before so many bytes, whose size is below its header or past what is left
fn bad_headers(kind: &[u8; 4], left: usize) -> Vec<Vec<u8>> {
    let left = left as u64;
    let narrow = [2, 7, left + 9, u32::MAX as u64].map(|size| narrow(size, kind));
    [narrow, [0, 15, left + 17, u64::MAX].map(|size| wide(size, kind))].concat()
}

/// Headers with a 64-bit size that aren't whole
fn half_headers(kind: &[u8; 4]) -> impl Iterator<Item = Vec<u8>> { (8..16).map(|len| wide(24, kind)[..len].to_vec()) }

/// A level with these bytes between two pieces of it
fn put(before: &[Piece], bytes: Vec<u8>, after: &[Piece]) -> Level { [before, &[Piece::Bytes(bytes)], after].concat() }

/// The ways in which box `k` of a level is torn
pub type Ways = fn(&[Piece], usize) -> Vec<Level>;

/// A broken header before it, after it and in its place; half a header before it and after it, where the level ends then; the box
/// left out, with up to 8 bytes at the end
pub fn every_way(level: &[Piece], k: usize) -> Vec<Level> {
    let Piece::Boxed { kind, inside, .. } = &level[k] else { return vec![] };
    let mut torn = Vec::new();
    for (before, after) in [level.split_at(k), level.split_at(k + 1)] {
        torn.extend(bad_headers(kind, written(after).len()).into_iter().map(|header| put(before, header, after)));
        torn.extend(half_headers(kind).map(|header| put(before, header, &[])));
    }
    let (before, after, payload) = (&level[..k], &level[k + 1..], written(inside));
    let headers = bad_headers(kind, payload.len() + written(after).len());
    torn.extend(headers.into_iter().map(|header| put(before, [header, payload.clone()].concat(), after)));
    torn.extend((0..=8).map(|left| put(&[before, after].concat(), vec![0; left], &[])));
    torn
}

/// A broken header before it, after it and in its place; the box left out
pub fn few_ways(level: &[Piece], k: usize) -> Vec<Level> {
    let Piece::Boxed { kind, inside, .. } = &level[k] else { return vec![] };
    let (before, after) = (&level[..k], &level[k + 1..]);
    let in_place = [narrow(u32::MAX as u64, kind), written(inside)].concat();
    vec![put(before, narrow(7, kind), &level[k..]), put(&level[..=k], wide(u64::MAX, kind), after), put(before, in_place, after), [before, after].concat()]
}

/// Each byte of its type made one that isn't text, or just is; a box and a broken header of that type before it and after it
pub fn by_type(level: &[Piece], k: usize) -> Vec<Level> {
    let Piece::Boxed { form, kind, inside } = &level[k] else { return vec![] };
    let mut torn = Vec::new();
    for (at, byte) in (0..4).flat_map(|at| [0, 0x1f, 0x20, 0x7e, 0x7f, 0x80, 0xff].map(|byte| (at, byte))) {
        let mut kind = *kind;
        kind[at] = byte;
        torn.push([&level[..k], &[Piece::Boxed { form: *form, kind, inside: inside.clone() }], &level[k + 1..]].concat());
        for (before, after) in [level.split_at(k), level.split_at(k + 1)] {
            for header in [boxed(Form::Short, &kind, &[]), boxed(Form::Long, &kind, &[]), narrow(7, &kind)] { torn.push(put(before, header, after)); }
        }
    }
    torn
}

/// The level with one box torn, at every place and every depth
pub fn everywhere(level: &[Piece], ways: Ways) -> Vec<Level> {
    let mut all = Vec::new();
    for (k, piece) in level.iter().enumerate() {
        all.extend(ways(level, k));
        let Piece::Boxed { form, kind, inside } = piece else { continue };
        let with = |inside| [&level[..k], &[Piece::Boxed { form: *form, kind: *kind, inside }], &level[k + 1..]].concat();
        all.extend(everywhere(inside, ways).into_iter().map(with));
    }
    all
}

/// The bytes with the size of one box overwritten, at any depth: by one that doesn't fit, or by 1, so that the 8 bytes after the type
/// are the size, which may fit. It is mostly on the way of the longest boxes, which hold the others
pub fn torn(r: &mut Random, mut bytes: Vec<u8>) -> Vec<u8> {
    let (mut from, mut to) = (0, bytes.len());
    loop {
        let boxes = walk(&bytes, from, to);
        if boxes.is_empty() { return bytes; }
        let longest = (0..boxes.len()).max_by_key(|k| boxes[*k].end - boxes[*k].start).unwrap();
        let k = if r.one_in(3) { r.size(boxes.len()) } else { longest };
        let at = if k == 0 { from } else { boxes[k - 1].end };
        let inside = boxes[k];
        if r.one_in(8) || walk(&bytes, inside.start, inside.end).is_empty() {
            let size = r.pick(&[1, 2, 7, (to - at) as u32 + 1, u32::MAX]);
            bytes[at..at + 4].copy_from_slice(&size.to_be_bytes());
            return bytes;
        }
        (from, to) = (inside.start, inside.end);
    }
}
