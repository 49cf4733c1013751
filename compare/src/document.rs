//! Numbers that docs/RULES.md, docs/AUDIT.md and crates/audit/specs/Examples.antt work out, lists of frames, offsets by the
//! standard, broken headers, lists of cuts and texts of tables, each with its answer in the form of `text`.

mod texts;

use std::rc::Rc;
use crate::{ case::{ Case, Lent, Map, SOURCE_WORDS, Table }, comparison, generate::{ moovs::{ self, Moov }, offsets::Offsets, tables, videos }, reference::boxes::code, text };

pub type Worked = (Case, &'static str);

/// Whether every worked number comes out; those that don't are printed
pub fn holds() -> bool {
    worked().into_iter().fold(true, |all, (case, expected)| {
        let said = comparison::compare(&case).map(|answer| text::answer_line(case.call(), &answer));
        let right = said.as_ref().is_ok_and(|line| line == expected);
        if !right { println!("{expected} is worked out for\n{}\nand it is {said:?}", text::case_line(&case)); }
        all && right
    })
}

/// All of them
pub fn worked() -> Vec<Worked> { [numbers(), table(), lists(), maps(), cuts(), origins(), times(), time_lapses(), offsets(), torn(), stopped(), clip(), clip_maps(), exports(), texts::worked()].concat() }

/// Ticks, ends that are near, and days
fn numbers() -> Vec<Worked> {
    let ends_at = |end| Case::ValidateConstant { table: Lent::new(videos::one_segment(30, 0, end)), frames: 30, num: 30000, den: 1001 };
    vec![
        (Case::TicksToUs { ticks: 1001, scale: 30000 }, "0 0 33367"),
        (Case::TicksToUs { ticks: 1, scale: 2_000_000 }, "0 0 1"),
        (Case::TicksToUs { ticks: -1, scale: 2_000_000 }, "0 0 -1"),
        (Case::TicksToUs { ticks: 1, scale: 4_000_000 }, "0 0 0"),
        (ends_at(967_633), "0 0 30"),
        (ends_at(1_034_367), "0 0 30"),
        (ends_at(967_632), "25 0"),
        (ends_at(1_034_368), "25 0"),
        (Case::IsUtcSecond { bytes: LEAP.to_vec() }, "1"),
        (Case::IsUtcSecond { bytes: NO_LEAP.to_vec() }, "0"),
        (Case::Check { table: Lent::new(created(LEAP)) }, "0 0 50"),
        (Case::Check { table: Lent::new(created(NO_LEAP)) }, "5 0"),
    ]
}

/// A day that there was, and one that there wasn't
const LEAP: &[u8] = b"0000-02-29T00:00:00Z";
const NO_LEAP: &[u8] = b"1900-02-29T00:00:00Z";

/// Table T, its first source with a creation time
fn created(time: &[u8]) -> Table {
    let mut table = Table { text: time.to_vec(), ..tables::t() };
    table.sources[3..6].copy_from_slice(&[1, 0, time.len() as u64]);
    table
}

/// Table T; T with a gap before its second segment, with its first segment past its source's frames, and with no frames in its
/// second source
fn table() -> Vec<Worked> {
    let t = Lent::new(tables::t());
    let time = |time| Case::SegmentOfTimeUs { table: t.clone(), time };
    let changed = |change: fn(&mut Table)| {
        let mut table = tables::t();
        change(&mut table);
        Case::Check { table: Lent::new(table) }
    };
    let mut worked = vec![
        (Case::Check { table: t.clone() }, "0 0 50"),
        (changed(|table| table.segments[8] = 31), "15 1"),
        (changed(|table| table.segments[1] = 71), "12 0"),
        (changed(|table| table.sources[SOURCE_WORDS] = 0), "4 1"),
        (time(-5), "0 0 0"),
        (time(1_200_000), "0 0 1"),
        (Case::RowsOfTable { table: t.clone(), room: [10, 2] }, "0 0 2 0 10 30 0 0 1 5 20 30 0 0 0"),
    ];
    for (frame, answer) in [(29, "0 0 0"), (30, "0 0 1"), (49, "0 0 1"), (50, "0 0 1")] { worked.extend(looked_up(&t, frame, answer)); }
    worked
}

/// A frame's segment, looked up over words and over records
fn looked_up(table: &Rc<Lent>, frame: u64, answer: &'static str) -> [Worked; 2] {
    [(Case::SegmentOfFrame { table: table.clone(), frame }, answer), (Case::SegmentOfFrameRecords { table: table.clone(), frame }, answer)]
}

/// Lists of frames of table T, in order, backwards and in no order, empty, and with room one short; of T with a gap before its
/// second segment, and of T whose source A has no frames
fn lists() -> Vec<Worked> {
    let frames = vec![0, 29, 30, 49, 50, u64::MAX];
    let backwards = frames.iter().rev().copied().collect();
    let (t, mut gap, mut empty) = (Lent::new(tables::t()), tables::t(), tables::t());
    gap.segments[8] = 31;
    empty.sources[0] = 0;
    let (gap, empty) = (Lent::new(gap), Lent::new(empty));
    let of = |table: &Rc<Lent>, frames, room| Case::SegmentsOfFrames { table: table.clone(), frames, room };
    vec![
        (of(&t, frames.clone(), 6), "0 0 6 0 0 1 1 1 1"),
        (of(&t, backwards, 6), "0 0 6 1 1 1 1 0 0"),
        (of(&t, vec![49, 0, 30, 29, u64::MAX], 6), "0 0 5 1 0 1 0 1"),
        (of(&t, vec![], 0), "0 0 0"),
        (of(&t, vec![29, 30], 1), "32 0"),
        (of(&t, frames.clone(), 5), "32 0"),
        (of(&gap, vec![], 0), "15 1"),
        (of(&gap, frames, 5), "15 1"),
        (of(&empty, vec![], 0), "4 0"),
    ]
}

/// A row as docs/AUDIT.md shows it: source, first frame there, frames, first frame of the map, shift
type Shown = (u64, u64, u64, u64, Option<i64>);

fn map(rows: &[Shown]) -> Map {
    Map {
        words: rows.iter().flat_map(|(source, first, count, out, shift)| [*source, *first, *count, *out, shift.is_some() as u64]).collect(),
        shifts: rows.iter().map(|row| row.4.unwrap_or(0)).collect(),
    }
}

/// A cut, and a merge, with room for as many rows as are written
fn cut(rows: &[Shown], a: u64, b: u64, written: usize) -> Case { Case::Cut { map: map(rows), a, b, room: [5 * written, written] } }
fn merge(rows: &[Shown], written: usize) -> Case { Case::Merge { map: map(rows), room: [5 * written, written] } }

/// The cuts of T, where a frame of the last comes from, and what a cut and a merge leave apart
fn maps() -> Vec<Worked> {
    let of_t = [(0, 10, 30, 0, None), (1, 5, 20, 30, None)];
    let continued = [(0, 0, 10, 0, None), (0, 10, 10, 10, None)];
    vec![
        (cut(&of_t, 25, 40, 2), "0 0 2 0 35 5 0 0 1 5 10 5 0 0 0"),
        (cut(&[(0, 35, 5, 0, None), (1, 5, 10, 5, None)], 3, 8, 2), "0 0 2 0 38 2 0 0 1 5 3 2 0 0 0"),
        (cut(&of_t, 28, 33, 2), "0 0 2 0 38 2 0 0 1 5 3 2 0 0 0"),
        (Case::Origin { map: map(&[(0, 38, 2, 0, None), (1, 5, 3, 2, None)]), frame: 2 }, "0 0 1 5 0 0"),
        (cut(&continued, 0, 20, 2), "0 0 2 0 0 10 0 0 0 10 10 10 0 0 0"),
        (merge(&continued, 1), "0 0 1 0 0 20 0 0 0"),
        (merge(&[(0, 0, 10, 0, None), (0, 10, 10, 10, Some(0))], 2), "0 0 2 0 0 10 0 0 0 10 10 10 1 0 0"),
        (merge(&[(0, 0, 10, 0, Some(5)), (0, 10, 10, 10, Some(6))], 2), "0 0 2 0 0 10 0 1 0 10 10 10 1 5 6"),
    ]
}

/// Lists of frames of T, in no order, none at all, with one past the map before the lack of room, and with room one short; of T with
/// a gap before its second row; and of the clip, whose second row has a shift
fn origins() -> Vec<Worked> {
    let of_t = [(0, 10, 30, 0, None), (1, 5, 20, 30, None)];
    let gap = [(0, 10, 30, 0, None), (1, 5, 20, 31, None)];
    let of = |rows: &[Shown], frames: &[u64], room| Case::Origins { map: map(rows), frames: frames.to_vec(), room };
    vec![
        (of(&of_t, &[30, 29, 49], 3), "0 0 3 1 5 0 0 39 0 1 24 0 0 0 0"),
        (of(&of_t, &[0, 0, 30, 0], 4), "0 0 4 0 10 0 0 10 0 1 5 0 0 10 0 0 0 0 0"),
        (of(&of_t, &[], 0), "0 0 0"),
        (of(&of_t, &[49, 50, 51], 0), "54 1"),
        (of(&of_t, &[u64::MAX], 1), "54 0"),
        (of(&of_t, &[0, 1], 1), "32 0"),
        (of(&gap, &[], 0), "51 1"),
        (of(&gap, &[99], 0), "51 1"),
        (of(&[], &[0], 1), "51 0"),
        (of(&CLIP, &[0, 39_999, 40_000, 56_200, 108_499], 5), "0 0 5 0 1500 0 0 41499 0 1 12000 1 1 28200 1 2 29999 0 0 0 -1800 -1800 0"),
    ]
}

/// Lists of cuts of T, in both orders, overlapping, none at all, with ranges that are no cuts, half a one at the end, and without
/// room; with room one short of words, of shifts and of counts; of T with a gap before its second row; and of the clip, the cuts
/// of `clip_maps` at once
fn cuts() -> Vec<Worked> {
    let of_t = [(0, 10, 30, 0, None), (1, 5, 20, 30, None)];
    let gap = [(0, 10, 30, 0, None), (1, 5, 20, 31, None)];
    let of = |rows: &[Shown], ranges: &[u64], room| Case::Cuts { map: map(rows), ranges: ranges.to_vec(), room };
    vec![
        (of(&of_t, &[25, 40, 28, 33], [20, 4, 2]), "0 0 4 0 35 5 0 0 1 5 10 5 0 0 38 2 0 0 1 5 3 2 0 0 0 0 0 2 2"),
        (of(&of_t, &[28, 30, 25, 40], [15, 3, 2]), "0 0 3 0 38 2 0 0 0 35 5 0 0 1 5 10 5 0 0 0 0 1 2"),
        (of(&of_t, &[30, 50, 0, 30, 29, 31], [20, 4, 3]), "0 0 4 1 5 20 0 0 0 10 30 0 0 0 39 1 0 0 1 5 1 1 0 0 0 0 0 1 1 2"),
        (of(&of_t, &[], [0; 3]), "0 0 0"),
        (of(&of_t, &[0, 50, 20, 51, 7, 7], [0; 3]), "50 1"),
        (of(&of_t, &[0, 50, 20], [0; 3]), "50 1"),
        (of(&of_t, &[0, 50], [0; 3]), "52 0"),
        (of(&of_t, &[25, 40, 28, 33, 0, 51], [30, 6, 3]), "50 2"),
        (of(&of_t, &[40, 25, 28], [30, 6, 3]), "50 1"),
        (of(&of_t, &[25, 40, 28, 33], [19, 4, 2]), "52 0"),
        (of(&of_t, &[25, 40, 28, 33], [20, 3, 2]), "52 0"),
        (of(&of_t, &[25, 40, 28, 33], [20, 4, 1]), "52 0"),
        (of(&gap, &[], [0; 3]), "51 1"),
        (of(&gap, &[0, 0], [0; 3]), "51 1"),
        (
            of(&CLIP, &[15000, 95000, 0, 50000, 50000, 108500], [35, 7, 3]),
            "0 0 7 0 16500 25000 0 0 1 12000 38500 25000 1 2 0 16500 63500 0 0 1500 40000 0 0 1 12000 10000 40000 1 \
             1 22000 28500 0 1 2 0 30000 28500 0 0 -1800 0 0 -1800 -1800 0 3 2 2",
        ),
    ]
}

/// M1, M2, moovs whose durations differ, a recording, and timestamps that fall
fn times() -> Vec<Worked> {
    let moov = |edited| of_three(false, &moovs::in_the_document(edited));
    vec![
        (moov(false), "0 0 3 100 10 50 10 20 40"),
        (moov(true), "0 0 3 100 10 40 0 10 30"),
        (lasting(&[5, 7, 7, 5]), "0 0 4 100 5 24 0 5 12 19"),
        (lasting(&[5, 5, 7, 8, 9]), "0 0 5 100 5 34 0 5 10 17 25"),
        (Case::McrawTimes { timestamps: vec![1000, 1010, 1025], room: [3; 2] }, "0 0 3 1000000000 10 35 0 10 25"),
        (Case::McrawTimes { timestamps: vec![1, 0], room: [2; 2] }, "34 1"),
    ]
}

/// The frame times of a moov of three frames, in the crate's mode or the standard's
fn of_three(standard: bool, moov: &Moov) -> Case { Case::VideoFrameTimesOfMoov { moov: moov.in_order(&[]), standard, room: [3; 3] } }

/// The time-lapse in both modes: without an edit, with one from the first frame on, and with one from 0 on; and with its offsets in
/// version 1, where they are negative, and every frame is before 0
fn time_lapses() -> Vec<Worked> {
    let (whole, edited) = (moovs::time_lapse(false), moovs::time_lapse(true));
    let mut from_0 = edited.clone();
    if let Some(edits) = &mut from_0.elst { edits.list[0].1 = 0; }
    let mut negative = whole.clone();
    if let Some(ctts) = &mut negative.ctts { ctts.version = 1; }
    vec![
        (of_three(false, &whole), "31 0"),
        (of_three(true, &whole), "0 0 3 1000000000 500000000 3900000000 2400000000 2900000000 3400000000"),
        (of_three(false, &edited), "31 0"),
        (of_three(true, &edited), "0 0 3 1000000000 500000000 1500000000 0 500000000 1000000000"),
        (of_three(false, &from_0), "31 0"),
        (of_three(true, &from_0), "0 0 3 1000000000 500000000 1500000000 0 500000000 1000000000"),
        (of_three(false, &negative), "31 0"),
        (of_three(true, &negative), "31 0"),
    ]
}

/// M1 with other offsets: the greatest without a top bit, the least with it and the greatest of all, in versions 0, 1, 2 and 255; top
/// bits of an entry of no frames and of one past them; and fewer offsets than frames
fn offsets() -> Vec<Worked> {
    let with = |standard, version, list: &[(u32, u32)]| {
        of_three(standard, &Moov { ctts: Some(Offsets { version, list: list.to_vec() }), ..moovs::in_the_document(false) })
    };
    let in_both = |version, list: &[(u32, u32)], answer| [false, true].map(|standard| (with(standard, version, list), answer));
    let (least, greatest) = (1 << 31, u32::MAX);
    let mut worked = vec![
        (with(false, 0, &[(3, least)]), "31 0"),
        (with(true, 0, &[(3, least)]), "0 0 3 100 10 2147483678 2147483648 2147483658 2147483668"),
        (with(false, 0, &[(3, greatest)]), "0 0 2 100 10 29 9 19"),
        (with(true, 0, &[(3, greatest)]), "0 0 3 100 10 4294967325 4294967295 4294967305 4294967315"),
        (with(false, 0, &[(1, greatest), (2, 10)]), "0 0 2 100 10 40 20 30"),
        (with(true, 0, &[(1, greatest), (2, 10)]), "0 0 3 100 10 4294967305 20 30 4294967295"),
        (with(false, 0, &[(1, 2_400_000_000)]), "0 0 2 100 10 30 10 20"),
        (with(true, 0, &[(1, 2_400_000_000)]), "0 0 3 100 10 2400000010 10 20 2400000000"),
    ];
    worked.extend(in_both(0, &[(3, least - 1)], "0 0 3 100 10 2147483677 2147483647 2147483657 2147483667"));
    for version in [1, 2, 255] {
        worked.extend(in_both(version, &[(3, least)], "31 0"));
        worked.extend(in_both(version, &[(3, greatest)], "0 0 2 100 10 29 9 19"));
    }
    for list in [[(0, least), (3, 10)], [(3, 10), (1, greatest)]] { worked.extend(in_both(0, &list, "0 0 3 100 10 40 10 20 30")); }
    worked
}

/// A moov of frames of these durations
fn lasting(durations: &[u32]) -> Case {
    let mut moov = moovs::in_the_document(false);
    moov.stts = durations.iter().map(|delta| (1, *delta)).collect();
    moov.ctts = None;
    Case::VideoFrameTimesOfMoov { moov: moov.in_order(&[]), standard: false, room: [durations.len(); 3] }
}

/// M2 with one header torn: of each box in turn, and of an mdhd that stands after the hdlr; without an mvhd, and without an stts;
/// with the mvhd a byte short; cut after the mvhd, and 7, 8 and more bytes later; with a broken header after the track, and the same
/// of a sound track
fn torn() -> Vec<Worked> {
    let m2 = moovs::in_the_document(true);
    let sound = Moov { handler: *b"soun", ..m2.clone() };
    let of = |moov: &[u8]| Case::VideoFrameTimesOfMoov { moov: moov.to_vec(), standard: false, room: [3; 3] };
    let whole = m2.in_order(&[]);
    let with = |at: usize, byte: u8| { let mut moov = whole.clone(); moov[at] = byte; moov };
    let size_of = |at| of(&with(at, 0xff));
    let mut mdhd_later = [&whole[..76], &whole[100..125], &whole[76..100], &whole[125..]].concat();
    mdhd_later[101] = 0xff;
    vec![
        (size_of(0), "36 0"),
        (size_of(24), "36 24"),
        // The edts hides the mdia, the mdhd the hdlr: then there is no video track, and the moov's own walk ended clean
        (size_of(32), "31 0"),
        (size_of(68), "31 0"),
        (size_of(76), "31 0"),
        (size_of(100), "31 0"),
        (of(&mdhd_later), "36 101"),
        (size_of(125), "36 125"),
        (size_of(133), "36 133"),
        (size_of(141), "36 141"),
        // No elst is no edit, no ctts no offsets
        (size_of(40), "0 0 3 100 10 50 10 20 40"),
        (size_of(165), "0 0 2 100 10 20 0 10"),
        (Case::VideoFrameTimesOfMoov { moov: with(141, 0xff), standard: false, room: [0; 3] }, "36 141"),
        (of(&with(4, b'x')), "31 0"),
        (of(&with(145, b'x')), "31 0"),
        (of(&with(3, 23)), "31 0"),
        (of(&whole[..24]), "31 0"),
        (of(&whole[..31]), "31 0"),
        (of(&whole[..32]), "36 24"),
        (of(&whole[..204]), "36 24"),
        (of(&[&whole, BAD].concat()), "0 0 3 100 10 40 0 10 30"),
        (of(&[&sound.in_order(&[]), BAD].concat()), "36 205"),
        (of(&[&sound.in_order(&[]), &BAD[..7]].concat()), "31 0"),
    ]
}

/// A header that says 7 bytes, one byte less than it has
const BAD: &[u8] = b"\0\0\0\x07moov";

/// How walks stop: at a broken header, at the first and after a box; at 7 bytes; at a type that isn't text, where it is to be; in a
/// range, whose offsets are those of the whole
fn stopped() -> Vec<Worked> {
    let free: &[u8] = b"\0\0\0\x08free";
    let child = |parts: &[&[u8]]| Case::Child { payload: parts.concat(), kind: code(b"moov") };
    let at = |at| Case::Children { payload: [free, BAD].concat(), at };
    let find = |parts: &[&[u8]], from, to, text_types| Case::FindBox { bytes: parts.concat(), from, to, kind: code(b"moov"), text_types };
    let moov: &[u8] = b"\0\0\0\x08moov";
    let no_text: &[u8] = b"\0\0\0\x08fre\x7f";
    vec![
        (child(&[BAD]), "36 0"),
        (child(&[free, BAD]), "36 8"),
        (child(&[free, &BAD[..7]]), "31 0"),
        (child(&[moov, BAD]), "0 0 8 0"),
        // A 64-bit size of which 7 bytes are there
        (child(&[free, b"\0\0\0\x01moov", &[0; 7]]), "36 8"),
        (at(0), "0 0 1718773093 8 0 8"),
        (at(8), "36 8"),
        (at(9), "31 0"),
        (find(&[b"..", free, BAD], 2, 18, true), "36 10"),
        (find(&[b"..", free, BAD], 2, 17, true), "31 0"),
        (find(&[b"..", no_text, moov], 2, 18, true), "36 2"),
        (find(&[b"..", no_text, moov], 2, 18, false), "0 0 18 0"),
        (find(&[b"..", free, moov, no_text], 2, 26, true), "0 0 18 0"),
    ]
}

/// The auditor's clip, of three originals at 25 frames a second, the second with a clock
const CLIP: [Shown; 3] = [(0, 1500, 40000, 0, None), (1, 12000, 38500, 40000, Some(-1800)), (2, 0, 30000, 78500, None)];

/// Its frames up to 50,000, and those after them
const HEAD: [Shown; 2] = [(0, 1500, 40000, 0, None), (1, 12000, 10000, 40000, Some(-1800))];
const TAIL: [Shown; 2] = [(1, 22000, 28500, 0, Some(-1800)), (2, 0, 30000, 28500, None)];

fn clip_table() -> Table {
    let source = |frames, clock: [u64; 4]| [&[frames, 25, 1, 0, 0, 0][..], &clock, &[0; 3]].concat();
    Table {
        sources: [source(90000, [0; 4]), source(60000, [1, 1_000_000, 1, 0]), source(45000, [0; 4])].concat(),
        segments: map(&CLIP).words,
        // 40,000 microseconds a frame
        times: CLIP.iter().flat_map(|(_, _, count, out, shift)| [0, *out as i64 * 40000, *count as i64 * 40000, 0, 0, 0, shift.unwrap_or(0)]).collect(),
        ..Table::default()
    }
}

/// The clip's table: accepted, judged, its rows, and frame 56,200 of it
fn clip() -> Vec<Worked> {
    let table = Lent::new(clip_table());
    let mut worked = vec![
        (Case::Check { table: table.clone() }, "0 0 108500"),
        (Case::ValidateConstant { table: table.clone(), frames: 108500, num: 25, den: 1 }, "0 0 108500"),
        (Case::RowsOfTable { table: table.clone(), room: [15, 3] }, "0 0 3 0 1500 40000 0 0 1 12000 38500 40000 1 2 0 30000 78500 0 0 -1800 0"),
    ];
    worked.extend(looked_up(&table, 56200, "0 0 1"));
    worked
}

/// The clip cut twice and cut at once, frame 41,200 of that; two neighbouring cuts, joined and merged
fn clip_maps() -> Vec<Worked> {
    let once = [(0, 6500, 35000, 0, None), (1, 12000, 38500, 35000, Some(-1800)), (2, 0, 26500, 73500, None)];
    let twice = [(0, 16500, 25000, 0, None), (1, 12000, 38500, 25000, Some(-1800)), (2, 0, 16500, 63500, None)];
    let joined = [HEAD[0], HEAD[1], (1, 22000, 28500, 50000, Some(-1800)), (2, 0, 30000, 78500, None)];
    vec![
        (cut(&CLIP, 5000, 105000, 3), "0 0 3 0 6500 35000 0 0 1 12000 38500 35000 1 2 0 26500 73500 0 0 -1800 0"),
        (cut(&once, 10000, 90000, 3), "0 0 3 0 16500 25000 0 0 1 12000 38500 25000 1 2 0 16500 63500 0 0 -1800 0"),
        (cut(&CLIP, 15000, 95000, 3), "0 0 3 0 16500 25000 0 0 1 12000 38500 25000 1 2 0 16500 63500 0 0 -1800 0"),
        (Case::Origin { map: map(&twice), frame: 41200 }, "0 0 1 28200 1 -1800"),
        (Case::Origin { map: map(&CLIP), frame: 56200 }, "0 0 1 28200 1 -1800"),
        (cut(&CLIP, 0, 50000, 2), "0 0 2 0 1500 40000 0 0 1 12000 10000 40000 1 0 -1800"),
        (cut(&CLIP, 50000, 108500, 2), "0 0 2 1 22000 28500 0 1 2 0 30000 28500 0 -1800 0"),
        (
            Case::Join { first: map(&HEAD), second: map(&TAIL), room: [20, 4] },
            "0 0 4 0 1500 40000 0 0 1 12000 10000 40000 1 1 22000 28500 50000 1 2 0 30000 78500 0 0 -1800 -1800 0",
        ),
        (merge(&joined, 3), "0 0 3 0 1500 40000 0 0 1 12000 38500 40000 1 2 0 30000 78500 0 0 -1800 0"),
    ]
}

/// Two exports of one trim that differ as far as they may, at 30000/1001 (the ends of `numbers`) and at 128/5; one whose source and
/// capture times are as late as can be; and recordings of one timestamp, whose last durations the fps decides
fn exports() -> Vec<Worked> {
    let lasting = |frames, num, den, end| Case::ValidateConstant { table: Lent::new(videos::one_segment(frames, 0, end)), frames, num, den };
    let elsewhere = Table { times: vec![i64::MAX - 1_001_000, 0, 1_001_000, 1 << 62, 1 << 62, (1 << 62) - 1, 0], ..videos::one_segment(30, 0, 0) };
    let filmed = |num, duration| {
        let mut table = videos::one_segment(1, 0, duration);
        table.sources[1] = num;
        Case::CheckMcraw { table: Lent::new(table), timestamps: vec![7], room: [0; 2] }
    };
    vec![
        (lasting(2, 128, 5, 39_062), "0 0 2"),
        (lasting(2, 128, 5, 117_188), "0 0 2"),
        (lasting(2, 128, 5, 39_061), "25 0"),
        (lasting(2, 128, 5, 117_189), "25 0"),
        (lasting(30, 30000, 1001, 1_001_000), "0 0 30"),
        (Case::ValidateConstant { table: Lent::new(elsewhere), frames: 30, num: 30000, den: 1001 }, "0 0 30"),
        (filmed(25, 40_000), "0 0 1"),
        (filmed(1, 1_000_000), "0 0 1"),
    ]
}
