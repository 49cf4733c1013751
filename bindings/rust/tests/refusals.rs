//! Each refusal number that a wrapped call can give, with its index; those of a table's text are in text.rs.
mod movie;

use movie::{boxed, full, in_both_modes, moov, place, CRATE, STANDARD};
use segment_table::*;

fn source() -> Source {
    Source { frames: 100, fps: (25, 1), ..Source::default() }
}

fn segment() -> Segment {
    Segment { frame_count: 10, duration_us: 400_000, capture_duration_us: 400_000, ..Segment::default() }
}

/// The segment that follows `segment()`, with something changed.
fn second(change: impl FnOnce(&mut Segment)) -> Segment {
    let mut s = Segment { out_first_frame: 10, out_start_us: 400_000, out_capture_start_us: 400_000, ..segment() };
    change(&mut s);
    s
}

#[track_caller]
fn refused<T: std::fmt::Debug>(number: u64, index: u64, answer: Result<T, Refusal>) {
    let refusal = answer.unwrap_err();
    assert_eq!((refusal.number, refusal.index), (number, index));
    assert_ne!(refusal.words(), "no such refusal");
}

#[track_caller]
fn source_refused(number: u64, bad: Source, log: bool) {
    let good = Source { clock: Some(Clock { rate: (1, 1), modulus: None }), ..source() };
    let shifted = Segment { clock_shift: Some(0), ..segment() };
    refused(number, 1, Table::new(&[good, bad], &[shifted], log));
}

#[track_caller]
fn segment_refused(number: u64, change: impl FnOnce(&mut Segment)) {
    refused(number, 1, Table::new(&[source()], &[segment(), second(change)], false));
}

#[test]
fn words_of_a_table() {
    refused(1, 0, Table::from_words(vec![1; 12], vec![], vec![], false, vec![]));
    refused(1, 0, Table::from_words(vec![100, 25, 1, 1, 0, 20, 0, 0, 0, 0, 0, 0, 0], vec![0; 5], vec![0; 7], false, vec![]));
    refused(2, 0, Table::new(&vec![source(); 257], &[segment()], false));
    refused(2, 0, Table::new(&[source()], &vec![segment(); 513], false));
    refused(3, 0, Table::new(&[], &[segment()], false));
    refused(8, 0, Table::new(&[source()], &[], false));
}

#[test]
fn sources() {
    source_refused(4, Source { frames: 0, ..source() }, false);
    source_refused(4, Source { fps: (0, 1), ..source() }, false);
    source_refused(5, Source { creation_time: Some("1900-02-29T00:00:00Z".into()), ..source() }, false);
    source_refused(6, Source { clock: Some(Clock { rate: (1, 0), modulus: None }), ..source() }, false);
    source_refused(6, Source { clock: Some(Clock { rate: (1, 1), modulus: Some(0) }), ..source() }, false);
    source_refused(7, source(), true);
}

#[test]
fn segments() {
    segment_refused(9, |s| s.source = 1);
    segment_refused(10, |s| s.frame_count = 0);
    segment_refused(11, |s| s.src_first_frame = u64::MAX);
    segment_refused(12, |s| s.src_first_frame = 91);
    segment_refused(13, |s| s.src_capture_start_us = -1);
    segment_refused(14, |s| s.src_start_us = i64::MAX);
    segment_refused(14, |s| s.duration_us = i64::MAX);
    segment_refused(15, |s| s.out_first_frame = 11);
    segment_refused(16, |s| s.out_start_us = 400_001);
    segment_refused(16, |s| s.out_capture_start_us = 0);
    segment_refused(17, |s| s.clock_shift = Some(0));
    assert!(Table::new(&[source()], &[segment(), second(|_| ())], false).is_ok());
}

#[test]
fn numbers() {
    refused(20, 0, ticks_to_us(0, 1 << 32));
    refused(23, 0, ticks_to_us(0, 0));
    refused(23, 0, ticks_to_us(i64::MAX, 1));
}

#[test]
fn boxes() {
    let large = vec![0; 16_777_217];
    refused(30, 0, box_size(&large, 8));
    refused(30, 0, children(&large));
    refused(30, 0, child(&large, *b"moov"));
    refused(30, 0, find_box(&large, 0..0, *b"moov", true));
    refused(30, 0, table_text(&large));
    refused(31, 0, box_size(b"\0\0\0", 3));
    refused(31, 0, child(b"", *b"moov"));
    refused(31, 0, find_box(b"", 0..0, *b"moov", false));
    refused(42, 0, find_box(b"", 0..1, *b"moov", false));
    #[allow(clippy::reversed_empty_ranges)]
    let reversed = 1..0;
    refused(42, 0, find_box(b"", reversed, *b"moov", false));
    refused(40, 0, table_text(b""));
    refused(41, 0, table_text(b"\0\0\0\x20moov\0\0\0\x18udta\0\0\0\x08MTRM\0\0\0\x08MTRM"));
}

/// Two boxes, then a broken header, then a moov: its offset is that in the whole of the bytes. Of the table nothing else is said.
#[test]
fn broken_headers() {
    let long = |size: u64| [&b"\0\0\0\x01long"[..], &size.to_be_bytes()].concat();
    let broken = [b"\0\0\0\x07torn".to_vec(), b"\xff\xff\xff\xfftorn".to_vec(), long(15), long(25), long((1 << 32) + 16), long(u64::MAX)];
    for torn in broken {
        let file = [&b"\0\0\0\x08free\0\0\0\x08free"[..], &torn, b"\0\0\0\x08moov"].concat();
        let end = file.len() as u64;
        refused(36, 16, child(&file, *b"moov"));
        refused(36, 16, children(&file).unwrap().end());
        for from in [0, 8, 16] {
            refused(36, 16, find_box(&file, from..end, *b"moov", false));
            refused(36, 16, find_box(&file, from..24, *b"moov", true));
            refused(31, 0, find_box(&file, from..23, *b"moov", true));
        }
        refused(40, 0, table_text(&file));
    }
}

/// A type outside 20..7E hex breaks a header where types are text, and nowhere else.
#[test]
fn broken_types() {
    for (byte, broken) in [(0x1f, true), (0x20, false), (0x7e, false), (0x7f, true)] {
        for k in 12..16 {
            let mut file = *b"\0\0\0\x08free\0\0\0\x08text\0\0\0\x08moov";
            file[k] = byte;
            let found = find_box(&file, 8..24, *b"moov", true);
            if broken { refused(36, 8, found) } else { assert_eq!(found, Ok(&b""[..])) }
            assert_eq!(find_box(&file, 8..24, *b"moov", false), Ok(&b""[..]));
        }
    }
}

#[test]
fn recordings() {
    refused(30, 0, mcraw_times(&vec![0; 16_777_217]));
    refused(31, 0, mcraw_times(&[1]));
    refused(31, 0, mcraw_times(&[1, 1]));
    refused(33, 0, mcraw_times(&[i64::MIN, i64::MAX]));
    refused(34, 2, mcraw_times(&[1, 2, 1]));
}

/// Two segments of ten frames, at 25 a second.
fn table() -> Table {
    Table::new(&[source()], &[segment(), second(|_| ())], false).unwrap()
}

#[test]
fn videos() {
    let constant = |frames, fps| table().validate(Video::Constant { frames, fps });
    assert_eq!(constant(20, (25, 1)), Ok(20));
    refused(21, 0, table().validate(Video::Absent));
    refused(20, 0, constant(20, (25, 1 << 32)));
    refused(22, 0, constant(19, (25, 1)));
    refused(23, 0, constant(20, (0, 1)));
    refused(24, 1, constant(20, (24, 1)));

    let good = FrameTimes { scale: 25, nominal: 1, end: 20, starts: (0..20).collect() };
    assert_eq!(table().validate(Video::Times(&good)), Ok(20));
    refused(20, 0, table().validate(Video::Times(&FrameTimes { scale: 1 << 32, ..good.clone() })));
    refused(20, 0, table().validate(Video::Times(&FrameTimes { starts: vec![0; 16_777_217], ..good.clone() })));
    refused(22, 0, table().validate(Video::Times(&FrameTimes { starts: vec![], ..good.clone() })));
    refused(23, 1, table().validate(Video::Times(&FrameTimes { scale: 1, starts: (0..20).map(|k| k / 10 * i64::MAX).collect(), ..good.clone() })));
    refused(25, 0, table().validate(Video::Times(&FrameTimes { end: 22, ..good })));
}

#[test]
fn recordings_of_a_table() {
    let stamps: Vec<i64> = (0..20).map(|k| k * 40_000_000).collect();
    assert_eq!(table().check_mcraw(&stamps), Ok(20));
    refused(30, 0, table().check_mcraw(&vec![0; 16_777_217]));
    refused(35, 0, table().check_mcraw(&[]));
    refused(35, 0, table().check_mcraw(&[4, 4]));
    refused(34, 1, table().check_mcraw(&[2, 1]));
    refused(33, 0, table().check_mcraw(&[i64::MIN, i64::MAX]));
    refused(22, 0, table().check_mcraw(&stamps[1..]));
    refused(22, 0, table().check_mcraw(&[5]));
}

#[test]
fn movies() {
    let plain = |scale, frames| moov(scale, (frames, 10), b"", b"");
    let times = in_both_modes(&plain(100, 3)).unwrap();
    assert_eq!((times.scale, times.nominal, times.end, times.starts), (100, 10, 30, vec![0, 10, 20]));
    // more frames than the room that is lent first
    let long = [plain(100, 5000), boxed(b"free", &[0; 5000])].concat();
    let times = in_both_modes(&long).unwrap();
    assert_eq!((times.end, times.starts.len(), times.starts[4999]), (50_000, 5000, 49_990));
    refused(30, 0, in_both_modes(&vec![0; 16_777_217]));
    refused(31, 0, in_both_modes(b""));
    refused(31, 0, in_both_modes(&plain(0, 3)));
    refused(31, 0, in_both_modes(&plain(100, 5000)));
}

/// A header whose size is less than its own.
const TORN: &[u8] = b"\0\0\0\x07torn";

/// The moov without the box of a type: it is of another one.
fn missing(moov: &[u8], kind: &[u8; 4]) -> Vec<u8> {
    let at = place(moov, kind);
    [&moov[..at + 4], b"free", &moov[at + 8..]].concat()
}

/// The moov with a broken header before the box of a type, in those around it.
fn broken(moov: &[u8], kind: &[u8; 4]) -> Vec<u8> {
    let at = place(moov, kind);
    let mut torn = [&moov[..at], TORN, &moov[at..]].concat();
    let mut from = 0;
    while from < at {
        let size = u32::from_be_bytes(moov[from..from + 4].try_into().unwrap());
        let around = at < from + size as usize;
        if around { torn[from..from + 4].copy_from_slice(&(size + 8).to_be_bytes()); }
        from += if around { 8 } else { size as usize };
    }
    torn
}

/// A stored movie with a box missing, and with a broken header before it.
#[test]
fn missing_or_broken() {
    let file = std::fs::read("../../crates/frametimes_files/data/late").unwrap();
    let moov = find_box(&file, 0..file.len() as u64, *b"moov", true).unwrap();
    for standard in [CRATE, STANDARD] { missing_or_broken_boxes(moov, standard); }
}

fn missing_or_broken_boxes(moov: &[u8], standard: bool) {
    let times = |moov: &[u8]| video_frame_times_of_moov(moov, standard);
    let whole = times(moov).unwrap();
    for kind in [b"mvhd", b"trak", b"minf", b"stbl", b"stts"] {
        refused(31, 0, times(&missing(moov, kind)));
        refused(36, place(moov, kind) as u64, times(&broken(moov, kind)));
    }
    // a track that isn't known to be of video: how the moov itself ends counts
    for kind in [b"mdia", b"mdhd", b"hdlr"] {
        let torn = broken(moov, kind);
        refused(31, 0, times(&missing(moov, kind)));
        refused(31, 0, times(&torn));
        refused(36, torn.len() as u64, times(&[&torn, TORN].concat()));
    }
    // what may be absent
    for kind in [b"ctts", b"edts", b"elst"] {
        let absent = times(&missing(moov, kind)).unwrap();
        assert_ne!(absent, whole);
        assert_eq!(times(&broken(moov, kind)), Ok(absent));
    }
    assert_eq!(times(&[moov, TORN].concat()), Ok(whole));
}

/// A moov without a video track, and a broken header after its mvhd; a mvhd that isn't whole is seen first.
#[test]
fn without_a_track() {
    let (good, short) = (full(b"mvhd", 0, &[0, 0, 100]), full(b"mvhd", 0, &[0, 0]));
    refused(31, 0, in_both_modes(&good));
    refused(31, 0, in_both_modes(&[&good, &TORN[..7]].concat()));
    refused(36, 24, in_both_modes(&[&good, TORN].concat()));
    refused(36, 0, in_both_modes(&[TORN, &good].concat()));
    refused(31, 0, in_both_modes(&[&short, TORN].concat()));
}

/// Too little room is what the safe calls never lend.
#[test]
fn room() {
    let (mut rows, mut index) = (7, 7);
    let (sources, segments, stamps) = ([100, 25, 1, 0, 0, 0, 0, 0, 0, 0, 0, 0, 0], [0, 0, 10, 0, 0], [0; 7]);
    let number = unsafe {
        ffi::st_rows_of_table(
            sources.as_ptr(), 13, segments.as_ptr(), 5, stamps.as_ptr(), 7, false, std::ptr::null(), 0,
            std::ptr::null_mut(), 0, std::ptr::null_mut(), 0, &mut rows, &mut index,
        )
    };
    assert_eq!((number, rows, index), (32, 7, 0));
}

/// The lookups of a list, in a table of two segments of ten frames, the second from this frame on: the number, and the
/// words `written` and `index`, lent as 7.
fn looked_up(second: u64, frames: &[u64], room: &mut [u64]) -> (u64, u64, u64) {
    let (mut written, mut index) = (7, 7);
    let (sources, segments, stamps) = ([100, 25, 1, 0, 0, 0, 0, 0, 0, 0, 0, 0, 0], [0, 0, 10, 0, 0, 0, 0, 10, second, 0], [0; 14]);
    let number = unsafe {
        ffi::st_segments_of_frames(
            sources.as_ptr(), 13, segments.as_ptr(), 10, stamps.as_ptr(), 14, false, std::ptr::null(), 0,
            frames.as_ptr(), frames.len(), room.as_mut_ptr(), room.len(), &mut written, &mut index,
        )
    };
    (number, written, index)
}

#[test]
fn room_for_a_list() {
    let mut room = [7; 4];
    assert_eq!(looked_up(10, &[9, 10, 0], &mut room[..2]), (32, 7, 0));
    assert_eq!(looked_up(10, &[9], &mut []), (32, 7, 0));
    // the table is tested first
    assert_eq!(looked_up(11, &[], &mut room), (15, 7, 1));
    assert_eq!(looked_up(11, &[9, 10, 0], &mut room[..2]), (15, 7, 1));
    assert_eq!(looked_up(11, &[9, 10, 0], &mut room), (15, 7, 1));
    assert_eq!(looked_up(10, &[], &mut room), (0, 0, 0));
    assert_eq!(room, [7; 4]);
    assert_eq!(looked_up(10, &[10, 9], &mut room[..2]), (0, 2, 0));
    assert_eq!(room, [1, 0, 7, 7]);
    assert_eq!(looked_up(10, &[9, 10, 0], &mut room), (0, 3, 0));
    assert_eq!(room, [0, 1, 0, 7]);
}

/// The cuts of a map of two rows of ten frames, the second from this frame on: the number, and the words `rows` and `index`, lent as 7.
fn cut(second: u64, ranges: &[u64], words: &mut [u64], shifts: &mut [i64], counts: &mut [u64]) -> (u64, u64, u64) {
    let (mut rows, mut index) = (7, 7);
    let (map, present) = ([0, 0, 10, 0, 1, 1, 5, 10, second, 0], [-3, 0]);
    let number = unsafe {
        ffi::st_cuts(
            map.as_ptr(), 10, present.as_ptr(), 2, ranges.as_ptr(), ranges.len(), words.as_mut_ptr(), words.len(),
            shifts.as_mut_ptr(), shifts.len(), counts.as_mut_ptr(), counts.len(), &mut rows, &mut index,
        )
    };
    (number, rows, index)
}

#[test]
fn room_for_cuts() {
    let (mut words, mut shifts, mut counts) = ([7; 20], [7; 4], [7; 3]);
    let ranges = [9, 11, 0, 1];
    assert_eq!(cut(10, &ranges, &mut words[..14], &mut shifts, &mut counts), (52, 7, 0));
    assert_eq!(cut(10, &ranges, &mut words, &mut shifts[..2], &mut counts), (52, 7, 0));
    assert_eq!(cut(10, &ranges, &mut words, &mut shifts, &mut counts[..1]), (52, 7, 0));
    assert_eq!(cut(10, &ranges, &mut [], &mut [], &mut []), (52, 7, 0));
    // the map is tested first, then the list's length, then its ranges
    assert_eq!(cut(11, &[9, 9, 0], &mut [], &mut [], &mut []), (51, 7, 1));
    assert_eq!(cut(11, &[], &mut words, &mut shifts, &mut counts), (51, 7, 1));
    assert_eq!(cut(10, &[9, 9, 0], &mut [], &mut [], &mut []), (50, 7, 1));
    assert_eq!(cut(10, &[9, 11, 9, 9, 21, 0], &mut [], &mut [], &mut []), (50, 7, 1));
    assert_eq!(cut(10, &[], &mut words, &mut shifts, &mut counts), (0, 0, 0));
    assert_eq!((words, shifts, counts), ([7; 20], [7; 4], [7; 3]));
    assert_eq!(cut(10, &ranges, &mut words[..15], &mut shifts[..3], &mut counts[..2]), (0, 3, 0));
    assert_eq!(words, [0, 9, 1, 0, 1, 1, 5, 1, 1, 0, 0, 0, 1, 0, 1, 7, 7, 7, 7, 7]);
    assert_eq!((shifts, counts), ([-3, 0, -3, 7], [2, 1, 7]));
}

#[test]
fn maps() {
    let row = |source_first, count, out_first| Row { source: 0, source_first, count, out_first, shift: None };
    let map = FrameMap::new(&[row(0, 5, 0), row(9, 5, 5)]).unwrap();
    #[allow(clippy::reversed_empty_ranges)]
    let reversed = 3..2;
    refused(50, 0, map.cut(reversed.clone()));
    refused(50, 0, map.cut(0..11));
    refused(50, 1, map.cuts(&[0..5, reversed.clone(), 0..11]));
    refused(50, 2, map.cuts(&[0..5, 0..10, 0..11, reversed.clone()]));
    refused(50, 0, map.cuts(&[u64::MAX..u64::MAX, 0..1]));
    refused(51, 0, FrameMap::new(&[]));
    refused(51, 1, FrameMap::new(&[row(0, 5, 0), row(0, 5, 6)]));
    refused(51, 0, FrameMap::from_words(vec![0; 4], vec![0]));
    let many: Vec<Row> = (0..1025).map(|k| row(0, 1, k)).collect();
    refused(52, 0, FrameMap::new(&many));
    refused(52, 0, FrameMap::new(&many[..1024]).unwrap().join(&map));
    let full = FrameMap::new(&[row(0, u64::MAX, 0)]).unwrap();
    refused(53, 0, full.join(&map));
    refused(54, 0, map.origin(10));
}
