//! The origins of a list of frames: what the single ones are, in any order, and which lists are refused.

use segment_table::{FrameMap, Origin, Refusal, Row};

/// Two clips that join at frame 30, the second with a shift, and one frame more of the first.
fn map() -> FrameMap {
    let row = |source, source_first, count, out_first, shift| Row { source, source_first, count, out_first, shift };
    FrameMap::new(&[row(0, 10, 30, 0, None), row(1, 5, 20, 30, Some(-7)), row(0, 90, 1, 50, Some(0))]).unwrap()
}

/// Each frame's origin, asked for alone.
fn alone(map: &FrameMap, frames: &[u64]) -> Result<Vec<Origin>, Refusal> {
    frames.iter().map(|frame| map.origin(*frame)).collect()
}

#[test]
fn each_origin_is_the_single_one() {
    let map = map();
    let all: Vec<u64> = (0..map.frames()).collect();
    let down: Vec<u64> = all.iter().rev().copied().collect();
    let mixed: Vec<u64> = all.iter().map(|frame| frame * 20 % 51).collect();
    for frames in [all, down, mixed, vec![30, 29, 30, 50, 0, 0, 49], vec![50; 9], vec![]] {
        assert_eq!(map.origins(&frames), alone(&map, &frames), "{frames:?}");
    }
}

#[test]
fn a_shift_of_0_is_no_absent_one() {
    let origins = map().origins(&[50, 49, 0]).unwrap();
    assert_eq!(origins.iter().map(|origin| origin.shift).collect::<Vec<_>>(), [Some(0), Some(-7), None]);
}

#[test]
fn the_first_frame_past_the_map_is_named() {
    let map = map();
    for (frames, index) in [(&[51][..], 0), (&[0, 50, 51, 52], 2), (&[u64::MAX, 51], 0)] {
        let refusal = map.origins(frames).unwrap_err();
        assert_eq!((refusal.number, refusal.index), (54, index), "{frames:?}");
    }
}

#[test]
fn the_longest_map() {
    let rows: Vec<Row> = (0..1024).map(|k| Row { source: k % 3, source_first: 1 << 40, count: 2, out_first: 2 * k, shift: None }).collect();
    let map = FrameMap::new(&rows).unwrap();
    let frames: Vec<u64> = (0..2048).chain([5, 2047, 0]).collect();
    assert_eq!(map.origins(&frames), alone(&map, &frames));
}
