//! Lists of cuts: of each range what the single cut gives.
use segment_table::{FrameMap, Row};
use std::ops::Range;

/// As many rows as a map may have, of one frame to five, every third with a shift.
fn map() -> FrameMap {
    let mut end = 0;
    let rows: Vec<Row> = (0..1024)
        .map(|k| {
            let row = Row { source: k % 7, source_first: 3 * k, count: 1 + k % 5, out_first: end, shift: (k % 3 == 0).then_some(-(k as i64)) };
            end += row.count;
            row
        })
        .collect();
    FrameMap::new(&rows).unwrap()
}

#[track_caller]
fn same(map: &FrameMap, ranges: &[Range<u64>]) {
    let each: Vec<FrameMap> = ranges.iter().map(|range| map.cut(range.clone()).unwrap()).collect();
    assert_eq!(map.cuts(ranges).unwrap(), each);
}

#[test]
fn ranges_in_any_order() {
    let map = map();
    let end = map.frames();
    same(&map, &(0..end).map(|frame| frame..frame + 1).collect::<Vec<_>>());
    same(&map, &(0..end).rev().map(|frame| frame..end).step_by(50).collect::<Vec<_>>());
    same(&map, &(1..end).map(|frame| 0..frame).step_by(50).collect::<Vec<_>>());
    same(&map, &(0..end - 6).map(|k| 997 * k % (end - 6)).map(|frame| frame..frame + 6).collect::<Vec<_>>()); // jumps
    same(&map, &[0..end, 0..end, 0..end]); // more rows in all than a map may have
}

#[test]
fn pieces_join_to_the_whole() {
    let map = map();
    let ends: Vec<u64> = (0..map.frames()).step_by(600).chain([map.frames()]).collect();
    let pieces = map.cuts(&ends.windows(2).map(|two| two[0]..two[1]).collect::<Vec<_>>()).unwrap();
    let joined = pieces[1..].iter().try_fold(pieces[0].clone(), |all, piece| all.merge().join(piece)).unwrap();
    assert_eq!(joined.merge(), map.merge());
}

#[test]
fn short_lists() {
    let map = map();
    assert_eq!(map.cuts(&[]).unwrap(), []);
    assert_eq!(map.cuts(&[0..map.frames(), 0..1]).unwrap(), [map.clone(), map.cut(0..1).unwrap()]);
    let full = FrameMap::new(&[Row { source: 0, source_first: 0, count: u64::MAX, out_first: 0, shift: None }]).unwrap();
    same(&full, &[0..u64::MAX, u64::MAX - 1..u64::MAX, 0..1, 1 << 63..u64::MAX]);
}
