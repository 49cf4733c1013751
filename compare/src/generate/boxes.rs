//! Boxes: sizes, children, searches in a range, and files with an MTRM box.

use super::{ Emit, damaged, levels::{ self, Piece, around, by_type, every_way, everywhere, in_every_form, leaf, written } };
use crate::{ case::Case, random::Random, reference::boxes::{ code, walk } };

/// How a box says its size
#[derive(Clone, Copy)]
pub enum Form { Short, Long, ToTheEnd }

/// A box
pub fn boxed(form: Form, kind: &[u8; 4], payload: &[u8]) -> Vec<u8> {
    let size = payload.len() as u64 + 8;
    match form {
        Form::Short => [&(size as u32).to_be_bytes()[..], kind, payload].concat(),
        Form::Long => [&1u32.to_be_bytes()[..], kind, &(size + 8).to_be_bytes(), payload].concat(),
        Form::ToTheEnd => [&0u32.to_be_bytes()[..], kind, payload].concat(),
    }
}

/// A box in any form; one that goes to the end only where it is the last
pub fn any_box(r: &mut Random, kind: &[u8; 4], payload: &[u8], last: bool) -> Vec<u8> {
    let form = match r.below(8) { 0 => Form::Long, 1 | 2 if last => Form::ToTheEnd, _ => Form::Short };
    boxed(form, kind, payload)
}

const SIZES: [u64; 14] = [17, 18, 24, 255, 256, 1 << 16, (1 << 31) - 1, 1 << 31, (1 << 32) - 2, (1 << 32) - 1, 1 << 32, 1 << 63, u64::MAX - 1, u64::MAX];

/// Every 32-bit and 64-bit size of these, every length to 20, every remainder around them
pub fn every_size(emit: Emit) {
    let sizes: Vec<u64> = (0..=16).chain(SIZES).collect();
    for size in &sizes {
        for wide in &sizes {
            let bytes = [&(*size as u32).to_be_bytes()[..], b"free", &wide.to_be_bytes(), &[7; 4]].concat();
            for remaining in [0, 7, 8, 9, 15, 16, 17, 20, *size, size.wrapping_sub(1), size.saturating_add(1), *wide, wide.wrapping_sub(1), u64::MAX] {
                emit(Case::BoxSize { data: bytes.clone(), remaining });
            }
        }
        for len in 0..=20 {
            let bytes = [&(*size as u32).to_be_bytes()[..], b"free", &16u64.to_be_bytes(), &[7; 4]].concat();
            emit(Case::BoxSize { data: bytes[..len].to_vec(), remaining: 20 });
        }
    }
}

pub fn size(r: &mut Random, emit: Emit) {
    let mut bytes = Vec::new();
    let first = match r.below(4) { 0 => 1, 1 => r.below(20) as u32, 2 => 0, _ => r.word() as u32 };
    bytes.extend(first.to_be_bytes());
    bytes.extend(b"moov");
    let wide = if r.one_in(2) { r.below(40) } else { r.word() };
    bytes.extend(wide.to_be_bytes());
    if r.one_in(3) { bytes.truncate(r.size(17)); }
    let remaining = match r.below(4) { 0 => r.word(), 1 => first as u64, 2 => wide, _ => r.below(40) };
    emit(Case::BoxSize { data: bytes, remaining });
}

const KINDS: [&[u8; 4]; 3] = [b"aaaa", b"bbbb", b"a\x7eb "];

/// Two boxes of every small size and type, cut off at every length; 64-bit sizes; nested boxes that go to the end
fn every_payload(mut take: impl FnMut(&[u8])) {
    for (one, two) in (0..=20u32).flat_map(|a| (0..=20u32).map(move |b| (a, b))) {
        for kinds in [[0, 1], [1, 0], [1, 1]] {
            let mut bytes = [&one.to_be_bytes()[..], KINDS[kinds[0]], &[9; 12]].concat();
            let at = (one.max(8) as usize).min(20);
            bytes.truncate(at);
            bytes.extend([&two.to_be_bytes()[..], KINDS[kinds[1]], &[9; 12]].concat());
            for len in 0..=bytes.len() { take(&bytes[..len]); }
        }
    }
    for size in (0..=40).chain(SIZES) {
        for len in 0..=40 {
            let bytes = [&1u32.to_be_bytes()[..], KINDS[0], &size.to_be_bytes(), &boxed(Form::Short, KINDS[1], &[5; 16])].concat();
            take(&bytes[..len]);
        }
    }
    let mut nested = Vec::new();
    for _ in 0..40 {
        nested = boxed(Form::ToTheEnd, KINDS[0], &nested);
        take(&nested);
    }
}

/// Boxes in every form, each torn in every way; types that aren't text
fn every_tear_of(top: &[Piece], mut take: impl FnMut(Vec<u8>)) {
    for level in in_every_form(top) {
        for torn in [everywhere(&level, every_way), everywhere(&level, by_type)].concat() { take(written(&torn)); }
    }
}

/// The same of a few boxes at the top level, one of them with boxes in it
fn every_tear(take: impl FnMut(Vec<u8>)) {
    let moov = around(b"moov", vec![leaf(b"mvhd", &[1; 4]), leaf(b"udta", &[])]);
    every_tear_of(&[leaf(b"ftyp", b"isom"), leaf(b"free", &[]), moov, leaf(b"mdat", &[5; 9])], take);
}

/// The first child of each of two types of every one of them; of types that come first, later and not at all, where a header is torn
pub fn every_child(emit: Emit) {
    every_payload(|payload| for kind in [KINDS[0], KINDS[1]] { emit(Case::Child { payload: payload.to_vec(), kind: code(kind) }) });
    every_tear(|payload| for kind in [b"ftyp", b"moov", b"mdat", b"udta"] { emit(Case::Child { payload: payload.clone(), kind: code(kind) }) });
}

/// The offsets that a walk of a payload reaches, its end among them where it gets there
fn reached(payload: &[u8]) -> Vec<u64> {
    let ends = walk(payload, 0, payload.len()).into_iter().map(|found| found.end as u64);
    std::iter::once(0).chain(ends).collect()
}

/// Every one of them at the offsets that a walk reaches, one before and after each, at its end and past it; boxes of every
/// form at every offset; those with a torn header at the offsets that are reached
pub fn every_offset(emit: Emit) {
    every_payload(|payload| {
        let end = payload.len() as u64;
        let mut at: Vec<u64> = reached(payload).into_iter().flat_map(|at| [at.saturating_sub(1), at, at + 1]).chain([end, end + 1]).collect();
        at.sort_unstable();
        at.dedup();
        for at in at { emit(Case::Children { payload: payload.to_vec(), at }); }
    });
    let payload = of_every_form();
    for at in (0..=payload.len() as u64 + 9).chain(SIZES) { emit(Case::Children { payload: payload.clone(), at }); }
    every_tear(|payload| for at in reached(&payload) { emit(Case::Children { payload: payload.clone(), at }) });
}

/// Boxes of every form, one of them with a box inside
fn of_every_form() -> Vec<u8> {
    let inside = boxed(Form::Short, KINDS[0], &[]);
    [boxed(Form::Short, KINDS[0], &[1; 3]), boxed(Form::Long, KINDS[1], &[2; 2]), boxed(Form::Short, KINDS[2], &inside), boxed(Form::ToTheEnd, KINDS[0], &[4])].concat()
}

/// A run of boxes, some of which hold boxes
fn tree(r: &mut Random, depth: u64) -> Vec<u8> {
    let n = r.below(5);
    let mut bytes = Vec::new();
    for k in 0..n {
        let payload = if depth > 0 && r.one_in(2) { tree(r, depth - 1) } else { vec![r.bits() as u8; r.size(12)] };
        let kind = if r.one_in(12) { [r.bits() as u8, b'a', 0x1f + r.below(2) as u8, 0x7e + r.below(2) as u8] } else { *r.pick(&KINDS) };
        bytes.extend(any_box(r, &kind, &payload, k + 1 == n));
    }
    bytes.extend(vec![0; r.size(10) / 2]);
    bytes
}

fn kind(r: &mut Random, bytes: &[u8]) -> u32 {
    if r.one_in(8) && bytes.len() >= 8 { return u32::from_be_bytes(bytes[4..8].try_into().unwrap()); }
    code(r.pick(&KINDS))
}

/// A run of boxes as it is, damaged, or with a size overwritten
fn run(r: &mut Random) -> Vec<u8> {
    let bytes = tree(r, 2);
    match r.below(4) { 0 => damaged(r, bytes), 1 => levels::torn(r, bytes), _ => bytes }
}

/// A run of boxes, good or damaged, from its start, at each offset that a walk reaches, and at any other
pub fn offsets(r: &mut Random, emit: Emit) {
    let payload = run(r);
    let end = payload.len() as u64;
    for at in reached(&payload) { emit(Case::Children { payload: payload.clone(), at }); }
    for at in [r.below(end + 1), end, end + 1 + r.below(3), r.word()] { emit(Case::Children { payload: payload.clone(), at }); }
}

pub fn child(r: &mut Random, emit: Emit) {
    let payload = run(r);
    let kind = kind(r, &payload);
    emit(Case::Child { payload, kind });
}

/// Every range of a few boxes; every byte of a type; torn headers, in the whole and in a range of it
pub fn every_range(emit: Emit) {
    let bytes = of_every_form();
    for (from, to) in (0..=bytes.len() as u64 + 2).flat_map(|a| (0..=bytes.len() as u64 + 2).map(move |b| (a, b))) {
        for kind in KINDS {
            for text_types in [false, true] { emit(Case::FindBox { bytes: bytes.clone(), from, to, kind: code(kind), text_types }); }
        }
    }
    for byte in 0..=255u8 {
        for at in 4..8 {
            let mut bytes = [boxed(Form::Short, b"aaaa", &[]), boxed(Form::Short, b"bbbb", &[])].concat();
            bytes[at] = byte;
            for text_types in [false, true] { emit(Case::FindBox { bytes: bytes.clone(), from: 0, to: 16, kind: code(b"bbbb"), text_types }); }
            emit(Case::FindBox { bytes: bytes.clone(), from: 0, to: 16, kind: u32::from_be_bytes(bytes[4..8].try_into().unwrap()), text_types: true });
        }
    }
    every_tear(|torn| for (before, after) in [(0, 0), (5, 3)] {
        let bytes = [&vec![0xff; before][..], &torn, &vec![0; after]].concat();
        let (from, to) = (before as u64, (before + torn.len()) as u64);
        for (kind, text_types) in [b"ftyp", b"moov", b"mdat"].into_iter().flat_map(|kind| [false, true].map(|text| (kind, text))) {
            emit(Case::FindBox { bytes: bytes.clone(), from, to, kind: code(kind), text_types });
        }
    });
}

pub fn range(r: &mut Random, emit: Emit) {
    let bytes = run(r);
    let len = bytes.len() as u64;
    let to = match r.below(10) { 0 => r.below(len + 3), 1 => r.word(), _ => len };
    let from = match r.below(10) { 0 => r.below(len + 3), 1 => r.word(), 2 => r.below(3), 3 => to, _ => 0 };
    let kind = kind(r, &bytes);
    emit(Case::FindBox { bytes, from, to, kind, text_types: r.one_in(2) });
}

/// A udta with none, one or two MTRM boxes among others
fn udta(r: &mut Random) -> Vec<u8> {
    let mut bytes = Vec::new();
    let n = r.below(5);
    for k in 0..n {
        let kind = if r.one_in(2) { b"MTRM" } else { r.pick(&[b"name", b"meta", b"\xa9xyz", b"MTRm"]) };
        let payload = vec![b'{'; r.size(9)];
        bytes.extend(any_box(r, kind, &payload, k + 1 == n));
    }
    bytes.extend(vec![0; r.size(8) / 2]);
    bytes
}

fn moov(r: &mut Random) -> Vec<u8> {
    let mut bytes = Vec::new();
    if r.one_in(2) { bytes.extend(any_box(r, b"mvhd", &[0; 5], false)); }
    if r.one_in(4) { let kind = r.pick(&[b"\x00\x01\x02\x03", b"trak"]); bytes.extend(any_box(r, kind, &[0; 5], false)); }
    if !r.one_in(10) { let payload = udta(r); bytes.extend(any_box(r, b"udta", &payload, true)); }
    if r.one_in(6) { let payload = udta(r); bytes.extend(any_box(r, b"udta", &payload, true)); }
    bytes
}

/// A file: boxes of several types and a moov, sometimes two or none
fn whole_file(r: &mut Random) -> Vec<u8> {
    let mut bytes = any_box(r, b"ftyp", b"isom", false);
    if r.one_in(3) { let kind = r.pick(&[b"mdat", b"free", b"a\x1fbc", b"a\x7fbc", b"a~ b"]); bytes.extend(any_box(r, kind, b"MTRM", false)); }
    if !r.one_in(16) { let payload = moov(r); bytes.extend(any_box(r, b"moov", &payload, true)); }
    if r.one_in(4) { let payload = moov(r); bytes.extend(any_box(r, b"moov", &payload, true)); }
    bytes
}

/// A file with one segment table, torn in every way, in every form; types that aren't text
pub fn every_file(emit: Emit) {
    let udta = around(b"udta", vec![leaf(b"MTRM", b"{}")]);
    let moov = around(b"moov", vec![leaf(b"mvhd", &[1; 4]), udta]);
    every_tear_of(&[leaf(b"ftyp", b"isom"), leaf(b"free", &[]), moov], |file| emit(Case::TableText { file }));
}

/// A file, its damaged copies, and now and then one with a size overwritten, and each of its beginnings
pub fn file(r: &mut Random, emit: Emit) {
    let file = whole_file(r);
    emit(Case::TableText { file: file.clone() });
    for _ in 0..r.below(3) { let file = damaged(r, file.clone()); emit(Case::TableText { file }); }
    if r.one_in(4) { let file = levels::torn(r, file.clone()); emit(Case::TableText { file }); }
    if r.one_in(100) {
        for len in 0..file.len() { emit(Case::TableText { file: file[..len].to_vec() }); }
    }
}
