//! The first lesson, on table T of RULES 3.6.
use segment_table::{FrameMap, Row, Segment, Source, Table};

fn row(source: u64, source_first: u64, count: u64, out_first: u64) -> Row {
    Row { source, source_first, count, out_first, shift: None }
}

fn table() -> Table {
    let source = |frames| Source { frames, fps: (25, 1), ..Source::default() };
    let first = Segment { src_first_frame: 10, frame_count: 30, duration_us: 1_200_000, ..Segment::default() };
    let second = Segment {
        source: 1, src_first_frame: 5, frame_count: 20, out_first_frame: 30,
        out_start_us: 1_200_000, duration_us: 800_000, ..Segment::default()
    };
    Table::new(&[source(100), source(50)], &[first, second], false).unwrap()
}

#[test]
fn cut_across_a_join_cut_again_and_find_the_first_frame_past_it() {
    let map = table().map();
    let clip = map.cut(25..40).unwrap();
    assert_eq!(clip.rows().collect::<Vec<_>>(), [row(0, 35, 5, 0), row(1, 5, 10, 5)]);
    let again = clip.cut(3..8).unwrap();
    assert_eq!(again.rows().collect::<Vec<_>>(), [row(0, 38, 2, 0), row(1, 5, 3, 2)]);
    assert_eq!(again, map.cut(28..33).unwrap());
    assert_eq!(map.cuts(&[25..40, 28..33]).unwrap(), [clip, again.clone()]);
    let past_join = again.rows().nth(1).unwrap().out_first;
    let origin = again.origin(past_join).unwrap();
    assert_eq!((origin.source, origin.frame, origin.shift), (1, 5, None));
}

#[test]
fn lookups() {
    let table = table();
    assert_eq!(table.frames(), 50);
    assert_eq!([29, 30, 50, u64::MAX].map(|f| table.segment_of_frame(f)), [0, 1, 1, 1]);
    assert_eq!(table.segments_of_frames(&[u64::MAX, 30, 29, 50, 29]), [1, 1, 0, 1, 0]);
    assert_eq!([-5, 1_200_000, i64::MIN, i64::MAX].map(|t| table.segment_of_time_us(t)), [0, 1, 0, 1]);
    assert_eq!([0, 1, 2, usize::MAX].map(|r| table.continues(r)), [false; 4]);
}

#[test]
fn joined_and_merged_cuts_are_the_whole() {
    let map = table().map();
    let parts = map.cut(0..10).unwrap().join(&map.cut(10..50).unwrap()).unwrap();
    assert_eq!(parts.rows().len(), 3);
    assert_eq!(parts.merge(), map);
    assert_eq!((&parts).into_iter().map(|r| r.count).sum::<u64>(), parts.frames());
    for frame in 0..50 {
        assert_eq!(parts.origin(frame), map.origin(frame));
    }
    let (words, shifts) = map.as_words();
    assert_eq!(FrameMap::from_words(words.to_vec(), shifts.to_vec()).unwrap(), map);
}
