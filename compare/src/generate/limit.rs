//! About 16,777,216 bytes, timestamps or starts: as many as may be, fewer, and more. Each costs as much as thousands of short
//! cases, so they are few.

use super::{ Emit, boxes::{ Form, boxed }, moovs, tables, videos };
use crate::{ case::{ Call, Case, Lent, Table }, reference::{ MOST_BYTES, boxes::code } };

const MOST: usize = MOST_BYTES;
/// Lengths in bytes
const LENGTHS: [usize; 6] = [MOST - 1, MOST, MOST + 1, MOST + 2, MOST + 8, 2 * MOST];
/// Numbers of timestamps, all too many
const TOO_MANY: [usize; 3] = [MOST + 1, MOST + 2, MOST + 4096];

/// The cases of a call that has such a limit
pub fn cases(call: Call, emit: Emit) {
    match call {
        Call::BoxSize => for len in LENGTHS { sizes(len, emit) },
        Call::Children => for payload in LENGTHS.into_iter().flat_map(payloads) { offsets(payload, emit) },
        Call::Child => for payload in LENGTHS.into_iter().flat_map(payloads) { emit(Case::Child { payload, kind: code(WANTED) }) },
        Call::FindBox => for len in LENGTHS { ranges(len, emit) },
        Call::TableText => for file in LENGTHS.into_iter().flat_map(files) { emit(Case::TableText { file }) },
        Call::VideoFrameTimesOfMoov => for len in LENGTHS { frame_times(len, emit) },
        Call::McrawTimes => recordings(|timestamps, room| emit(Case::McrawTimes { timestamps, room })),
        Call::CheckMcraw => judged(emit),
        Call::ValidateTimes => starts(emit),
        _ => {}
    }
}

/// A size of each form at the start of `len` bytes, and what remains said rightly and wrongly
fn sizes(len: usize, emit: Emit) {
    for head in [boxed(Form::ToTheEnd, WANTED, &[]), boxed(Form::Short, WANTED, &[5]), [&[0, 0, 0, 1][..], WANTED, &(len as u64).to_be_bytes()].concat()] {
        for remaining in [0, len as u64, u64::MAX] { emit(Case::BoxSize { data: lengthened(head.clone(), len), remaining }); }
    }
}

fn lengthened(mut bytes: Vec<u8>, len: usize) -> Vec<u8> {
    bytes.resize(len, 0);
    bytes
}

const WANTED: &[u8; 4] = b"aaaa";
const OTHER: &[u8; 4] = b"bbbb";

/// Boxes of `len` bytes together: one that goes to the end, one that says so much, one at the very end, none, as many as may be
fn payloads(len: usize) -> [Vec<u8>; 5] {
    let last = boxed(Form::Short, WANTED, &[]);
    [
        lengthened(boxed(Form::ToTheEnd, WANTED, &[]), len),
        boxed(Form::Short, WANTED, &vec![0; len - 8]),
        [boxed(Form::Long, OTHER, &vec![0; len - 24]), last.clone()].concat(),
        vec![0; len],
        lengthened([boxed(Form::Short, OTHER, &[]).repeat(len / 8 - 1), last].concat(), len),
    ]
}

/// The first box, the second, one at the end, and what no box starts at
fn offsets(payload: Vec<u8>, emit: Emit) {
    let end = payload.len() as u64;
    for at in [0, 8, end - 8, end - 1, end, end + 1, u64::MAX] { emit(Case::Children { payload: payload.clone(), at }); }
}

/// The whole of each of them; ranges that are too long, empty, and turned round
fn ranges(len: usize, emit: Emit) {
    let (end, kind) = (len as u64, code(WANTED));
    for bytes in payloads(len) { emit(Case::FindBox { bytes, from: 0, to: end, kind, text_types: true }); }
    for (from, to) in [(0, 8), (0, end + 1), (end, end), (1, 0)] { emit(Case::FindBox { bytes: vec![0; len], from, to, kind: 0, text_types: false }); }
}

/// Files of `len` bytes: the moov at the front, at the end, of the whole length; a second table at the end; no moov
fn files(len: usize) -> [Vec<u8>; 5] {
    let whole = |kind: &[u8; 4], payload: &[u8]| boxed(Form::ToTheEnd, kind, payload);
    let moov = boxed(Form::Short, b"moov", &boxed(Form::Short, b"udta", &boxed(Form::Short, b"MTRM", b"{}")));
    let table = whole(b"moov", &whole(b"udta", &whole(b"MTRM", b"{}")));
    let one = boxed(Form::Short, b"MTRM", &vec![b' '; len - 32]);
    [
        lengthened(moov.clone(), len),
        [boxed(Form::Short, b"mdat", &vec![0; len - 8 - moov.len()]), moov].concat(),
        lengthened(table, len),
        whole(b"moov", &whole(b"udta", &[one, boxed(Form::Short, b"MTRM", &[])].concat())),
        vec![0; len],
    ]
}

/// M1 and M2 of RULES 8.10, `len` bytes long, in one mode or the other: with room and without; of as many frames as bytes, and
/// one more
fn frame_times(len: usize, emit: Emit) {
    let m2 = moovs::in_the_document(true);
    let short = m2.in_order(&boxed(Form::Short, b"free", &[])).len();
    let padded = |moov: &moovs::Moov| moov.in_order(&boxed(Form::Short, b"free", &vec![0; len - short]));
    let mut take = |moov, standard, room| emit(Case::VideoFrameTimesOfMoov { moov, standard, room });
    take(lengthened(m2.to_the_end(), len), false, [3; 3]);
    take(lengthened(moovs::in_the_document(false).to_the_end(), len), true, [4; 3]);
    take(padded(&m2), true, [3, 4, 5]);
    take(padded(&m2), false, [3, 2, 3]);
    take(vec![0; len], true, [0; 3]);
    for (frames, standard) in [(len, false), (len + 1, true)] {
        let moov = moovs::Moov { stts: vec![(frames as u32, 1)], ..m2.clone() };
        take(padded(&moov), standard, [3; 3]);
    }
}

/// `n` timestamps: ascending, equal, falling at the end, or so far apart that their span is no i64
fn timestamps(n: usize, kind: usize) -> Vec<i64> {
    let mut list: Vec<i64> = if kind == 0 { (0..n as i64).map(|k| k * 1000).collect() } else { vec![0; n] };
    match kind {
        2 => list[n - 1] = -1,
        3 => (list[0], list[n - 1]) = (i64::MIN, i64::MAX),
        _ => {}
    }
    list
}

/// Recordings with too many timestamps of each kind, without room and with little; with as many as may be, once with room for all
fn recordings(mut emit: impl FnMut(Vec<i64>, [usize; 2])) {
    for kind in 0..4 {
        for room in [[0, 0], [5, 3]] {
            for n in TOO_MANY { emit(timestamps(n, kind), room); }
        }
        for room in [[0, 0], [MOST - 1, 3]] { emit(timestamps(MOST, kind), room); }
    }
    emit(timestamps(MOST, 0), [MOST, MOST]);
}

/// The same, judged by a table that fits those with room; and too many timestamps with tables that are refused themselves
fn judged(emit: Emit) {
    let fitting = Lent::new(videos::one_segment(MOST as u64, 0, MOST as i64));
    recordings(|timestamps, room| emit(Case::CheckMcraw { table: fitting.clone(), timestamps, room }));
    let mut without_frames = tables::t();
    without_frames.segments[7] = 0;
    for table in [Table::default(), without_frames].map(Lent::new) {
        emit(Case::CheckMcraw { table, timestamps: timestamps(MOST + 1, 1), room: [2, 3] });
    }
}

/// As many starts as may be, one fewer, and one more
fn starts(emit: Emit) {
    for frames in [MOST - 1, MOST, MOST + 1] {
        let table = Lent::new(videos::one_segment(frames as u64, 0, 0));
        emit(Case::ValidateTimes { table, scale: 1000, starts: vec![0; frames], end: 0, nominal: 1 });
    }
}
