//! Texts about 1,048,576 bytes, and work about what they need; lists about the limits; objects of many names.

use super::{ Emit, around, document, raw, rooms, roomy, trees::{ PLAIN, Tree } };
use crate::{ case::{ Case, Table }, generate::tables, random::Random, reference::texts::{ MOST_TEXT, work_needed } };

pub fn fixed(emit: Emit) {
    limits(emit);
    largest(emit);
    created(emit);
    lengths(emit);
    works(emit);
    for (_, text) in hostile() {
        emit(roomy([&text[..text.len() - 1], b"]"].concat()));
        emit(roomy(text));
    }
    many_names(emit);
    inner_names(emit);
}

/// Room for the most that a table has
const MOST_ROOM: [usize; 5] = [3328, 2560, 3584, 5120, 262_144];

/// Table T with its first source and its first segment so many times, each segment one frame on; the last source or segment as it is,
/// without a member, or refused by the check; with room for all, and none
fn limits(emit: Emit) {
    let mut r = Random::new(6);
    let plain = document(&mut r, &tables::t()).unwrap();
    for (sources, segments) in [(255, 2), (256, 512), (257, 2), (2, 511), (2, 513), (257, 513), (300, 0), (0, 513), (1000, 1000)] {
        for last in 0..5 {
            let mut table = document(&mut r, &tables::with_segments(1)).unwrap_or(plain.clone());
            let source = table.member("sources").items()[0].clone();
            let segment = table.member("segments").items()[0].clone();
            *table.member("sources") = Tree::List(vec![source; sources]);
            *table.member("segments") = Tree::List((0..segments).map(|k| at_frame(&segment, k)).collect());
            let list = if last % 2 == 0 { "sources" } else { "segments" };
            if let Some(item) = table.member(list).items().last_mut() {
                match last {
                    0 | 1 => {}
                    2 | 3 => { item.members().unwrap().pop(); }
                    _ => *item.member("frames") = raw(0),
                }
            }
            let text = table.plainly();
            for room in [MOST_ROOM, [0, 0, 0, 0, work_needed(text.len())], [3327, 2560, 3584, 0, 262_144], [3328, 2559, 3584, 0, 262_144], [3328, 2560, 3583, 0, 262_144]] {
                emit(Case::ReadTable { text: text.clone(), room });
            }
        }
    }
}

fn at_frame(segment: &Tree, k: usize) -> Tree {
    let mut segment = segment.clone();
    *segment.member("out_first_frame") = raw(k);
    *segment.member("out_start_us") = raw(k);
    segment
}

/// The most sources, each with a creation time and a clock, and the most segments, with rooms that are exact, and one short
fn largest(emit: Emit) {
    let segments = tables::with_segments(512);
    let source = |k: u64| [100, 25, 1, 1, 20 * k, 20, 2, 1000, 1, 1 << 40, k, 1, k];
    let mut table = Table { sources: (0..256).flat_map(source).collect(), text: b"2024-11-17T13:12:46Z".repeat(256), log: true, ..segments };
    for (segment, k) in table.segments.chunks_mut(5).zip(0..) { (segment[0], segment[4]) = (k / 2, 1); }
    for (stamps, k) in table.times.chunks_mut(7).zip(0..) { stamps[6] = k; }
    let text = document(&mut Random::new(4), &table).unwrap().plainly();
    let exact = [3328, 2560, 3584, 5120, work_needed(text.len())];
    emit(Case::ReadTable { text: text.clone(), room: exact });
    for k in 0..5 {
        let mut room = exact;
        room[k] -= 1;
        emit(Case::ReadTable { text: text.clone(), room });
    }
}

/// Creation times of any length, which are refused, with room for them and one byte less; as they are, and escaped
fn created(emit: Emit) {
    let plain = document(&mut Random::new(4), &tables::with_segments(1)).unwrap();
    for len in [0, 1, 19, 20, 21, 100, 5120, 5121, 200_000] {
        for (part, bytes) in [("x", 1), ("\\u0041", 1), ("é", 2), ("\\u00e9", 2), ("\\ud834\\udd1e", 4)] {
            if len * part.len() > 1_000_000 { continue; }
            let mut table = plain.clone();
            *table.member("sources").items()[0].member("creation_time") = raw(format!("\"{}\"", part.repeat(len)));
            let text = table.plainly();
            for dates in [len * bytes, (len * bytes).saturating_sub(1), len * bytes + 9] {
                emit(Case::ReadTable { room: [60, 60, 60, dates, work_needed(text.len())], text: text.clone() });
            }
        }
    }
}

/// Table T with blanks, a string or lists, and what is no JSON, in lengths about the most
fn lengths(emit: Emit) {
    let t = document(&mut Random::new(4), &tables::t()).unwrap().plainly();
    for len in [MOST_TEXT - 1, MOST_TEXT, MOST_TEXT + 1, MOST_TEXT + 2, 2 * MOST_TEXT] {
        let more = len - t.len();
        let blanks = " ".repeat(more).into_bytes();
        let inner = [b",\"x\":\"", &b"x".repeat(more - 7)[..], b"\"}"].concat();
        for text in [[&t[..], &blanks].concat(), [&blanks[..], &t].concat(), [&t[..t.len() - 1], &inner].concat(), b"\xff".repeat(len), b"[".repeat(len)] {
            for work in [262_144, 262_143, 262_145, 0] { emit(Case::ReadTable { text: text.clone(), room: [60, 60, 60, 60, work] }); }
        }
    }
}

/// Lengths and work about where a quarter of the length passes the least
fn works(emit: Emit) {
    let t = document(&mut Random::new(4), &tables::t()).unwrap().plainly();
    for len in 15_350..15_370 {
        for work in 3838..3844 { emit(Case::ReadTable { text: [&t[..], &b"\n".repeat(len - t.len())].concat(), room: [60, 60, 60, 60, work] }); }
    }
    for len in [0, 1, 20_000, 20_001, 20_002, 20_003, 20_004] {
        for less in [0, 1, 2] { emit(Case::ReadTable { text: b"0".repeat(len), room: [0, 0, 0, 0, work_needed(len) - less] }); }
    }
}

/// So many items, as many as come to just under 1,048,576 bytes together, joined by commas
fn joined(item: impl Fn(usize) -> String) -> String {
    let mut all = String::new();
    for k in 0.. {
        let next = item(k);
        if all.len() + next.len() + 200 > MOST_TEXT { break; }
        if k > 0 { all.push(','); }
        all += &next;
    }
    all
}

/// An accepted table of one segment with a member that is passed over
pub fn with_member(inner: &str) -> Vec<u8> {
    let table = document(&mut Random::new(4), &tables::with_segments(1)).unwrap().plainly();
    let most = MOST_TEXT - table.len() - 6;
    assert!(inner.len() <= most, "{} bytes are too many", inner.len());
    [&table[..table.len() - 1], b",\"x\":", inner.as_bytes(), b"}"].concat()
}

/// Tables of about 1,048,576 bytes with a member that takes long to read, or looks as if
pub fn hostile() -> Vec<(&'static str, Vec<u8>)> {
    let most = MOST_TEXT - 2000;
    let names = |name: fn(usize) -> usize| format!("{{{}}}", (0..92_000).map(|k| format!("\"n{:05}\":0", name(k))).collect::<Vec<_>>().join(","));
    let long = |k: usize| format!("\"{}{:03}\":0", "n".repeat(1000), k);
    let objects = format!("[{}]", "{\"a\":0,\"b\":1,\"c\":2},".repeat(most / 21) + "0");
    let nests = |open: &str, close: &str, inner: &str| {
        let nest = open.repeat(30) + inner + &close.repeat(30) + ",";
        format!("[{}0]", nest.repeat(most / nest.len()))
    };
    vec![
        ("one object of 92,000 names", with_member(&names(|k| k))),
        ("the same, names in no order", with_member(&names(|k| k * 7919 % 92_000))),
        ("one object of names of 1,000 equal bytes", with_member(&format!("{{{}}}", (0..1000).map(long).collect::<Vec<_>>().join(",")))),
        ("31 lists round a long string", with_member(&("[".repeat(31) + "\"" + &"x".repeat(most - 100) + "\"" + &"]".repeat(31)))),
        ("a list of 523,000 numbers", with_member(&format!("[{}1]", "1,".repeat(523_000)))),
        ("a list of numbers of 20 digits", with_member(&format!("[{}]", "18446744073709551615,".repeat(most / 21) + "0"))),
        ("a list of fractions", with_member(&format!("[{}]", "1.2345678901234567e-300,".repeat(most / 24) + "0"))),
        ("a list of nests of 30 lists", with_member(&nests("[", "]", ""))),
        ("a list of nests of 30 objects", with_member(&nests("{\"a\":", "}", "0"))),
        ("a list of objects of three names", with_member(&objects)),
        ("a list of empty strings", with_member(&format!("[{}0]", "\"\",".repeat(most / 3)))),
        ("a string of escapes", with_member(&format!("\"{}\"", "\\u00e9".repeat(most / 6)))),
        ("a string of characters of three bytes", with_member(&format!("\"{}\"", "€".repeat(most / 3)))),
        ("blanks", with_member(&(" ".repeat(most) + "0"))),
    ]
}

/// Objects of many names, all of them different, or one of them there again: each pair of places in the small ones, the ends in the large
fn many_names(emit: Emit) {
    let object = |n: usize, first: usize, second: usize, more: &str| {
        let members: Vec<String> = (0..n).map(|k| format!("\"{more}{}\":{k}", if k == second { first } else { k })).collect();
        format!("{{{}}}", members.join(",")).into_bytes()
    };
    for n in 1..12 { for second in 0..n { for first in 0..=second { emit(roomy(object(n, first, second, ""))); } } }
    for n in [31, 32, 33, 62, 63, 64, 65, 66, 127, 128, 129, 256, 257, 1000, 3839, 3840, 3841, 5000, 20_000] {
        for (first, second) in [(0, 0), (0, 1), (0, n / 2), (0, n - 1), (n / 2, n - 1), (n - 2, n - 1), (n / 2 - 1, n / 2)] {
            for more in ["", "the same beginning "] {
                let text = object(n, first, second, more);
                if n < 1000 { emit(roomy(around(&[b"[", &text[..], b",", &text, b"]"].concat()))); }
                emit(roomy(text));
            }
        }
    }
    let all = joined(|k| format!("\"{k}\":0"));
    emit(roomy(format!("{{{all}}}").into_bytes()));
    emit(roomy(format!("{{{all},\"0\":0}}").into_bytes()));
}

/// Objects one in another, with names before and after the inner one; in one of them a name comes again, before or after it
fn inner_names(emit: Emit) {
    for depth in 1..=32usize {
        for at in 0..depth {
            for (before, after) in [("\"a\":0,\"b\":0,", ",\"c\":0"), ("\"a\":0,\"c\":0,", ",\"c\":0"), ("\"a\":0,\"a\":0,", ",\"c\":0"), ("\"a\":0,", ",\"x\":0"), ("\"x\":0,", ""), ("", ",\"c\":0,\"c\":0")] {
                let mut text = String::from("0");
                for k in 0..depth {
                    let (before, after) = if k == at { (before, after) } else { ("\"a\":0,", ",\"c\":0") };
                    text = format!("{{{before}\"x\":{text}{after}}}");
                }
                emit(roomy(text.into_bytes()));
            }
        }
    }
}

/// An object of up to 300 names, a longer table, and now and then a hostile text
pub fn random(r: &mut Random, emit: Emit) {
    if r.one_in(3000) {
        let mut texts = hostile();
        let mut text = texts.swap_remove(r.size(texts.len())).1;
        if r.one_in(2) { text = super::grammar::damaged(r, &text); }
        return emit(roomy(text));
    }
    let of = r.pick(&[2000, 100_000]);
    let members: Vec<String> = (0..r.below(300)).map(|_| format!("\"{}\":0", r.below(of))).collect();
    let object = format!("{{{}}}", members.join(",")).into_bytes();
    emit(roomy(if r.one_in(2) { around(&object) } else { object }));
    let table = tables::good(r);
    let Some(mut document) = document(r, &table) else { return };
    document.shuffle(r);
    let text = document.written(PLAIN, r);
    let room = rooms(r, &table, text.len());
    emit(Case::ReadTable { text, room });
}
