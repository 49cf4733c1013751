//! Words of what is absent: two tables that differ in them alone are equal, and so are their hashes.
use segment_table::{Segment, Source, Table};
use std::collections::hash_map::DefaultHasher;
use std::hash::{Hash, Hasher};

fn hash(table: &Table) -> u64 {
    let mut hasher = DefaultHasher::new();
    table.hash(&mut hasher);
    hasher.finish()
}

/// A table of one segment, whose source has this creation time, clock and shift.
fn table(created: [u64; 3], clock: [u64; 4], flag: u64, shift: i64) -> Table { of_origin(created, clock, flag, shift, [0, 0, 0]) }

/// The same with this size and origin.
fn of_origin(created: [u64; 3], clock: [u64; 4], flag: u64, shift: i64, origin: [u64; 3]) -> Table {
    let source = [&[100, 25, 1][..], &created, &clock, &origin].concat();
    let stamps = vec![0, 0, 400_000, 0, 0, 400_000, shift];
    Table::from_words(source, vec![0, 0, 10, 0, flag], stamps, false, b"2024-11-17T13:12:46Z".to_vec()).unwrap()
}

#[track_caller]
fn same(a: Table, b: Table) {
    assert_eq!(a, b);
    assert_eq!(hash(&a), hash(&b));
}

#[test]
fn words_of_what_is_absent_make_no_difference() {
    let (no_time, no_clock) = ([0, 0, 0], [0, 0, 0, 0]);
    let plain = || table(no_time, no_clock, 0, 0);
    same(table([0, 7, u64::MAX], no_clock, 0, 0), plain());
    same(table(no_time, [0, 1, 2, 3], 0, 0), plain());
    same(table(no_time, no_clock, 0, i64::MIN), plain());
    same(table(no_time, [1, 90_000, 1, 5], 1, 8), table(no_time, [1, 90_000, 1, 0], 1, 8));
    same(of_origin(no_time, no_clock, 0, 0, [0, 0, 7]), plain());
}

#[test]
fn words_of_what_is_there_do() {
    let (no_time, no_clock) = ([0, 0, 0], [0, 0, 0, 0]);
    let differing = [
        table(no_time, no_clock, 0, 0),
        table([1, 0, 20], no_clock, 0, 0),
        table(no_time, [1, 90_000, 1, 0], 1, 8),
        table(no_time, [1, 90_000, 1, 0], 1, 9),
        table(no_time, [1, 90_000, 2, 0], 1, 8),
        table(no_time, [2, 90_000, 1, 9], 1, 8),
        table(no_time, [2, 90_000, 1, 10], 1, 8),
        of_origin(no_time, no_clock, 0, 0, [1, 0, 0]),
        of_origin(no_time, no_clock, 0, 0, [0, 1, 0]),
        of_origin(no_time, no_clock, 0, 0, [0, 1, 5]),
    ];
    for (k, a) in differing.iter().enumerate() {
        for b in &differing[..k] { assert_ne!(a, b); }
    }
}

/// Bytes around the creation times, and where in the text they stand, make no difference either; the times themselves do.
#[test]
fn only_creation_times_count_of_the_text() {
    let table = |at: u64, text: &str| {
        let source = vec![100, 25, 1, 1, at, 20, 0, 0, 0, 0, 0, 0, 0];
        Table::from_words(source, vec![0, 0, 10, 0, 0], vec![0; 7], false, text.as_bytes().to_vec()).unwrap()
    };
    same(table(3, "?? 2024-11-17T13:12:46Z!"), table(0, "2024-11-17T13:12:46Z"));
    assert_ne!(table(0, "2024-11-17T13:12:47Z"), table(0, "2024-11-17T13:12:46Z"));
    assert_eq!(table(3, "?? 2024-11-17T13:12:46Z!").segment_of_frame(9), 0);
}

/// A source without a creation time has no place in the text, wherever it stands in the list.
#[test]
fn a_table_of_records_is_that_of_its_words() {
    let source = |creation_time| Source { frames: 100, fps: (25, 1), creation_time, ..Source::default() };
    let sources = [source(Some("2024-11-17T13:12:46Z".into())), source(None)];
    let segment = Segment { source: 1, frame_count: 10, ..Segment::default() };
    let words = vec![100, 25, 1, 1, 0, 20, 0, 0, 0, 0, 0, 0, 0, 100, 25, 1, 0, 0, 0, 0, 0, 0, 0, 0, 0, 0];
    let lent = Table::from_words(words, vec![1, 0, 10, 0, 0], vec![0; 7], false, b"2024-11-17T13:12:46Z".to_vec());
    same(Table::new(&sources, &[segment], false).unwrap(), lent.unwrap());
}
