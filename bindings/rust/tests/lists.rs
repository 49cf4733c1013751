//! Lists of frames: of each frame what the single lookup answers.
use segment_table::{Segment, Source, Table};

/// As many segments as a table may have, of one frame to five.
fn table() -> Table {
    let source = Source { frames: 5, fps: (25, 1), ..Source::default() };
    let mut segments = [Segment::default(); 512];
    let mut end = 0;
    for (k, s) in (0..).zip(&mut segments) {
        (s.frame_count, s.out_first_frame) = (1 + k % 5, end);
        end += s.frame_count;
    }
    Table::new(&[source], &segments, false).unwrap()
}

#[track_caller]
fn same(table: &Table, frames: &[u64]) {
    let each: Vec<usize> = frames.iter().map(|&frame| table.segment_of_frame(frame)).collect();
    assert_eq!(table.segments_of_frames(frames), each);
}

#[test]
fn frames_in_any_order() {
    let table = table();
    let past = table.frames() + 5;
    same(&table, &(0..past).collect::<Vec<_>>());
    same(&table, &(0..past).rev().collect::<Vec<_>>());
    same(&table, &(0..past).flat_map(|frame| [frame; 3]).collect::<Vec<_>>());
    same(&table, &(0..past).map(|k| 997 * k % past).collect::<Vec<_>>()); // jumps
    same(&table, &(0..past).flat_map(|frame| [frame, u64::MAX, past - frame, 0]).collect::<Vec<_>>());
}

#[test]
fn short_lists() {
    let table = table();
    assert_eq!(table.segments_of_frames(&[]), [0; 0]);
    assert_eq!(table.segments_of_frames(&[u64::MAX]), [511]);
    assert_eq!(table.segments_of_frames(&[u64::MAX, 0, u64::MAX, u64::MAX]), [511, 0, 511, 511]);
    assert_eq!(table.segments_of_frames(&[0, 1, 2, 3, 5, 6, 14, 15]), [0, 1, 1, 2, 2, 3, 4, 5]);
}
