//! What a call reserves: of what it refuses little, of what it accepts what the answer needs.
#[allow(dead_code)] // both modes, which the other tests of movies look at
mod movie;

use movie::{boxed, moov};
use segment_table::*;
use std::alloc::{GlobalAlloc, Layout, System};
use std::cell::Cell;

/// The system's allocator, which counts what each thread holds, and the most that it held.
struct Counting;

thread_local! {
    static HELD: Cell<isize> = const { Cell::new(0) };
    static MOST: Cell<isize> = const { Cell::new(0) };
}

fn held() -> isize {
    HELD.with(Cell::get)
}

fn count(bytes: isize) {
    HELD.with(|held| held.set(held.get() + bytes));
    MOST.with(|most| most.set(most.get().max(held())));
}

unsafe impl GlobalAlloc for Counting {
    unsafe fn alloc(&self, layout: Layout) -> *mut u8 {
        count(layout.size() as isize);
        System.alloc(layout)
    }

    unsafe fn alloc_zeroed(&self, layout: Layout) -> *mut u8 {
        count(layout.size() as isize);
        System.alloc_zeroed(layout)
    }

    unsafe fn realloc(&self, at: *mut u8, layout: Layout, size: usize) -> *mut u8 {
        count(size as isize - layout.size() as isize);
        System.realloc(at, layout, size)
    }

    unsafe fn dealloc(&self, at: *mut u8, layout: Layout) {
        count(-(layout.size() as isize));
        System.dealloc(at, layout)
    }
}

#[global_allocator]
static COUNTING: Counting = Counting;

/// The answer of a call, the most bytes that it held at once, and those that its answer holds.
fn reserved<T>(call: impl FnOnce() -> T) -> (T, usize, usize) {
    let before = held();
    MOST.with(|most| most.set(before));
    let answer = call();
    (answer, (MOST.with(Cell::get) - before) as usize, (held() - before) as usize)
}

/// A refusal by its number and index, with at most so many bytes held.
#[track_caller]
fn refused<T: std::fmt::Debug>(number: u64, index: u64, most: usize, call: impl FnOnce() -> Result<T, Refusal>) {
    let (answer, held, _) = reserved(call);
    let refusal = answer.unwrap_err();
    assert_eq!((refusal.number, refusal.index), (number, index));
    assert!(held <= most, "{held} bytes, over {most}");
}

/// As many rows as a map may have, of one frame each.
fn map() -> FrameMap {
    FrameMap::new(&(0..1024).map(row).collect::<Vec<_>>()).unwrap()
}

fn row(k: u64) -> Row {
    Row { source: 0, source_first: 2 * k, count: 1, out_first: k, shift: None }
}

const ROW: usize = 6 * 8;
/// What a list of cuts holds beside the rows: the first frame of each row of a full map.
const FIRSTS: usize = 8 * 1024;

#[test]
fn cuts_with_a_range_that_is_none() {
    let map = map();
    #[allow(clippy::reversed_empty_ranges)]
    for bad in [0..2000, 3..3, 4..3, u64::MAX..u64::MAX] {
        // the ranges before it aren't cut, those after it aren't looked at
        refused(50, 1, FIRSTS + 2 * 24, || map.cuts(&[0..1024, bad.clone()]));
        let mut ranges = vec![0..1024; 1_000_001];
        ranges[0] = bad;
        refused(50, 0, FIRSTS + 24, || map.cuts(&ranges));
    }
}

#[test]
fn cuts_that_are_accepted() {
    let map = map();
    // one row each, and all rows each: the rows once together, once in their maps
    for ranges in [(0..1024).map(|frame| frame..frame + 1).collect::<Vec<_>>(), vec![0..1024; 100]] {
        let (cuts, most, held) = reserved(|| map.cuts(&ranges).unwrap());
        let rows: usize = cuts.iter().map(|cut| cut.rows().len()).sum();
        assert_eq!(held, ROW * rows + std::mem::size_of::<FrameMap>() * ranges.len());
        assert!(most <= held + ROW * rows + FIRSTS + 24 * ranges.len(), "{most} bytes for {held}");
    }
}

#[test]
fn maps() {
    let map = map();
    let (one, _, held) = reserved(|| map.cut(1000..1001).unwrap());
    assert_eq!((one.rows().len(), held), (1, ROW));
    let whole = FrameMap::new(&[Row { count: 1024, ..row(0) }]).unwrap();
    let halves = whole.cut(0..512).unwrap().join(&whole.cut(512..1024).unwrap()).unwrap();
    let (merged, _, held) = reserved(|| halves.merge());
    assert_eq!((merged.rows().len(), held), (1, ROW));
    let rows: Vec<Row> = (0..100_000).map(row).collect();
    refused(52, 0, 1025 * ROW, || FrameMap::new(&rows));
    refused(52, 0, 1024 * ROW, || map.join(&map));
}

#[test]
fn tables() {
    let source = Source { frames: 100, fps: (25, 1), ..Source::default() };
    let segment = Segment { frame_count: 1, ..Segment::default() };
    let late = Source { creation_time: Some("2024-11-17T13:12:46Z".repeat(10_000)), ..source.clone() };
    let (sources, segments, late) = (vec![late.clone(); 300], vec![segment; 100_000], [late]);
    refused(2, 0, 40_000, || Table::new(&sources, &[segment], false));
    refused(2, 0, 513 * 12 * 8 + 13 * 8, || Table::new(&[source], &segments, false));
    refused(5, 0, 1000, || Table::new(&late, &[segment], false));
    refused(2, 0, 40_000, || segment_of_frame_records(&sources, &[TrimSegment::default()], false, 0));
    refused(5, 0, 1000, || segment_of_frame_records(&late, &[TrimSegment::default()], false, 0));
}

/// A text takes room by its length: at most six times as much, and 30 KB more; what is kept is the table and the names.
#[test]
fn texts() {
    let name = "C0539.MP4";
    for sources in [1, 100, 256] {
        let source = Source { frames: 100, fps: (25, 1), creation_time: Some("2024-11-17T13:12:46Z".into()), ..Source::default() };
        let segment = Segment { frame_count: 1, ..Segment::default() };
        let table = Table::new(&vec![source; sources], &[segment], false).unwrap();
        let text = table.to_json(&vec![name; sources]);
        let (read, most, held) = reserved(|| Table::from_json(text.as_bytes()).unwrap());
        assert_eq!(read.table, table);
        assert_eq!(held, (13 * 8 + 20 + name.len() + std::mem::size_of::<String>()) * sources + 12 * 8);
        assert!(most <= 6 * text.len() + 3840 * 8, "{most} bytes for {}", text.len());
    }
    let blanks = vec![b' '; 1_048_577];
    refused(60, 0, 0, || Table::from_json(&blanks));
    refused(61, 0, 4 * blanks.len(), || Table::from_json(&blanks[1..]));
}

#[test]
fn recordings() {
    let source = Source { frames: 100, fps: (25, 1), ..Source::default() };
    let table = Table::new(&[source], &[Segment { frame_count: 3, duration_us: 120_000, ..Segment::default() }], false).unwrap();
    let stamps = vec![0; 16_777_217];
    refused(30, 0, 0, || mcraw_times(&stamps));
    refused(30, 0, 0, || table.check_mcraw(&stamps));
    let stamps = [7_000_000, 47_000_000, 87_000_000];
    let (times, most, held) = reserved(|| mcraw_times(&stamps).unwrap());
    assert_eq!((times.starts.len(), most, held), (3, 2 * 24, 24));
    let (frames, most, held) = reserved(|| table.check_mcraw(&stamps));
    assert_eq!((frames, most, held), (Ok(3), 2 * 24, 0));
}

/// A moov's frames take room by their number, of which a file says what it likes: at most twice what they need, and no more than
/// 24 bytes a byte.
#[test]
fn movies() {
    let times = |moov: &[u8]| reserved(|| video_frame_times_of_moov(moov, true));
    for frames in [1, 4096, 4097, 8193, 30_000] {
        let file = [moov(100, (frames, 10), b"", b""), boxed(b"free", &vec![0; 40_000])].concat();
        let (answer, most, held) = times(&file);
        assert_eq!((answer.unwrap().starts.len(), held), (frames as usize, 8 * frames as usize));
        assert!(most <= 24 * (2 * frames as usize).max(4096), "{most} bytes for {frames} frames");
    }
    let few = moov(100, (u32::MAX, 10), b"", b"");
    let (answer, most, _) = times(&few);
    assert_eq!(answer.unwrap_err().number, 31);
    assert!(most <= 24 * few.len(), "{most} bytes for {} bytes", few.len());
}
