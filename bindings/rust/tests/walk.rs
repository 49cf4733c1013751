//! The walk over a payload's boxes.
use segment_table::{child, children, find_box, Refusal};

type Found<'a> = Vec<([u8; 4], &'a [u8])>;

fn walked(payload: &[u8]) -> Found<'_> {
    children(payload).unwrap().collect()
}

#[test]
fn sizes_of_every_form() {
    let short = b"\0\0\0\x0aaaaa12";
    let long = b"\0\0\0\x01bbbb\0\0\0\0\0\0\0\x1234";
    let to_the_end = b"\0\0\0\0cccc567";
    let payload = [&short[..], long, to_the_end].concat();
    assert_eq!(walked(&payload), [(*b"aaaa", &b"12"[..]), (*b"bbbb", b"34"), (*b"cccc", b"567")]);
}

#[test]
fn the_walk_ends_at_what_does_not_fit_and_stays_there() {
    assert_eq!(walked(b""), Found::new());
    assert_eq!(walked(b"\0\0\0\x08"), Found::new());
    let good = b"\0\0\0\x08free";
    for bad in [&b"\0\0\0\x08fre"[..], b"\0\0\0\x07free", b"\0\0\0\x09free", b"\0\0\0\x01free\0\0\0\0\0\0\0", b"\xff\xff\xff\xfffree"] {
        let payload = [&good[..], bad].concat();
        let mut boxes = children(&payload).unwrap();
        assert_eq!(boxes.next(), Some((*b"free", &b""[..])));
        assert_eq!([boxes.next(), boxes.next()], [None, None]);
    }
}

/// How the walk over a payload ends, asked before it, during it and after it.
#[track_caller]
fn ends(payload: &[u8], end: Result<(), Refusal>) {
    let mut boxes = children(payload).unwrap();
    assert_eq!(boxes.clone().end(), end);
    while boxes.next().is_some() { assert_eq!(boxes.clone().end(), end); }
    assert_eq!(boxes.end(), end);
}

#[test]
fn the_walk_says_how_it_ended() {
    let good = b"\0\0\0\x08free\0\0\0\x09more!";
    for left in 0..8 { ends(&[&good[..], &b"\0\0\0\x07torn"[..left]].concat(), Ok(())); }
    for bad in [&b"\0\0\0\x07free"[..], b"\0\0\0\x09free", b"\0\0\0\x01free\0\0\0\0\0\0\0", b"\xff\xff\xff\xfffree"] {
        ends(bad, Err(Refusal { number: 36, index: 0 }));
        ends(&[&good[..], bad].concat(), Err(Refusal { number: 36, index: 17 }));
        assert_eq!(walked(bad), Found::new());
    }
    ends(b"\0\0\0\0last", Ok(()));
}

#[test]
fn the_most_bytes() {
    let payload = b"\0\0\0\x08free".repeat(16_777_216 / 8);
    assert_eq!(children(&payload).unwrap().count(), 16_777_216 / 8);
}

/// A stored movie, walked to its leaves: each box's first child of a type is the first that the walk gives of that type.
#[test]
fn a_movie() {
    let file = std::fs::read("../../crates/frametimes_files/data/m1").unwrap();
    let moov = find_box(&file, 0..file.len() as u64, *b"moov", true).unwrap();
    assert_eq!(walked(&file).iter().find(|(kind, _)| kind == b"moov").map(|(_, payload)| *payload), Some(moov));
    let mut inside = vec![moov];
    let mut seen = 0;
    while let Some(payload) = inside.pop() {
        for (kind, part) in walked(payload) {
            let first = walked(payload).into_iter().find(|(other, _)| *other == kind).map(|(_, part)| part);
            assert_eq!(child(payload, kind).ok(), first);
            seen += 1;
            if [*b"trak", *b"mdia", *b"minf", *b"stbl", *b"edts", *b"udta"].contains(&kind) { inside.push(part); }
        }
    }
    assert!(seen >= 8, "{seen} boxes");
}
