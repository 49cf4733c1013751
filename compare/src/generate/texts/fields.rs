//! The members of a table's objects: each value another, each member missing, twice, renamed and in every order; each byte changed.

use super::{ Emit, document, raw, roomy, text, trees::{ NUMBERS, Style, Tree, content, escape, value } };
use crate::{ case::{ SOURCE_WORDS, Table }, generate::tables, random::Random };

/// Values of every type, some that one member takes and another doesn't
const OTHERS: [&str; 24] = [
    "null", "true", "false", "\"\"", "\"1\"", "\"null\"", "\"2024-11-17T13:12:46Z\"", "\"2023-02-29T00:00:00Z\"", "\"2024-11-17T13:12:46z\"", "\"\\u0032024-11-17T13:12:46\\u005A\"",
    "\"2024-11-17T13:12:4\\u00e9\"", "[]", "[1]", "[1,1]", "[1,0]", "[0,1]", "[1,1,1]", "[1,1.0]", "[\"1\",1]", "[[1,1]]", "{}", "{\"name\":\"\",\"rate\":[1,1],\"modulus\":null}",
    "{\"name\":\"\",\"rate\":[1,1],\"modulus\":1}", "{\"version\":1}",
];

/// A table with a log, clocks with and without a modulus, creation times and an origin; and one of which all that may be absent is
fn full() -> Table {
    let created = |from| [1, from, 20];
    let source = |frames: u64, time: [u64; 3], clock: [u64; 4], rest: [u64; 3]| [&[frames, 25, 1][..], &time, &clock, &rest].concat();
    Table {
        sources: [source(100, created(0), [1, 1000, 1, 0], [7, 1, 5]), source(50, created(20), [2, 1_000_000, 1, 1 << 32], [8, 0, 0])].concat(),
        segments: vec![0, 10, 30, 0, 1, 1, 5, 20, 30, 1],
        times: vec![0, 0, 1_200_000, 0, 0, 0, -3, 0, 1_200_000, 800_000, 0, 0, 0, 9],
        log: true,
        text: b"2024-11-17T13:12:46Z2024-11-17T13:12:47Z".to_vec(),
    }
}

fn least() -> Table {
    let t = tables::t();
    Table { sources: t.sources[..SOURCE_WORDS].to_vec(), segments: t.segments[..5].to_vec(), times: t.times[..7].to_vec(), ..t }
}

fn documents() -> [Tree; 3] { [least(), tables::t(), full()].map(|table| document(&mut Random::new(4), &table).unwrap()) }

pub fn fixed(emit: Emit) {
    for mut document in documents() {
        emit(roomy(document.plainly()));
        rooms(&document, emit);
        every_value(&document, emit);
        every_member(&mut document, emit);
        orders(&document, emit);
    }
    every_byte(emit);
}

/// Each node another value
fn every_value(document: &Tree, emit: Emit) {
    for k in 0..document.nodes() {
        for other in OTHERS.into_iter().chain(NUMBERS) {
            let mut changed = document.clone();
            *changed.node(k) = raw(other);
            emit(roomy(changed.plainly()));
        }
    }
}

/// Each member missing, renamed, with its name escaped, and there twice
fn every_member(document: &mut Tree, emit: Emit) {
    let mut r = Random::new(2);
    for k in 0..document.nodes() {
        let members = document.node(k).members().map_or(0, |members| members.len());
        for j in 0..members {
            let mut with = |change: &dyn Fn(&mut Vec<(Tree, Tree)>, &mut Random)| {
                let mut changed = document.clone();
                change(changed.node(k).members().unwrap(), &mut r);
                emit(roomy(changed.plainly()));
            };
            with(&|members, _| { members.remove(j); });
            with(&|members, _| members[j].0 = longer(&members[j].0, "_"));
            with(&|members, _| members[j].0 = longer(&members[j].0, "\0"));
            with(&|members, r| members[j].0 = escaped(&members[j].0, r));
            with(&|members, _| members.push((members[j].0.clone(), raw(0))));
            with(&|members, _| members.insert(0, (members[j].0.clone(), raw("null"))));
            with(&|members, r| { let name = escaped(&members[j].0, r); members.insert(j, (name, members[j].1.clone())) });
            with(&|members, _| { let name = members[j].0.clone(); members.push((text("x"), Tree::Object(vec![(name, raw(1))]))) });
            with(&|members, _| { let name = members[j].0.clone(); members.push((text("x"), Tree::List(vec![Tree::Object(vec![(name.clone(), raw(1)), (name, raw(1))])]))) });
        }
    }
}

fn longer(name: &Tree, by: &str) -> Tree { if let Tree::Text(name) = name { Tree::Text(format!("{name}{by}")) } else { name.clone() } }

/// A name with every character of it escaped
fn escaped(name: &Tree, r: &mut Random) -> Tree {
    let Tree::Text(name) = name else { return name.clone() };
    let mut bytes = b"\"".to_vec();
    for c in name.chars() { escape(c, &mut bytes, r); }
    bytes.push(b'"');
    Tree::Raw(bytes)
}

/// Every order of the members of each object that has at most six, and many of the others'
fn orders(document: &Tree, emit: Emit) {
    let mut r = Random::new(3);
    for k in 0..document.nodes() {
        let len = document.clone().node(k).members().map_or(0, |members| members.len());
        if len == 0 { continue; }
        let turns = (1..=len as u64).product::<u64>().min(720);
        for turn in 0..turns {
            let mut changed = document.clone();
            let members = changed.node(k).members().unwrap();
            if len <= 6 { ordered(members, turn) } else { for k in (1..len).rev() { members.swap(k, r.size(k + 1)); } }
            emit(roomy(changed.plainly()));
        }
    }
}

/// The order of a number below the factorial
fn ordered<T>(list: &mut [T], mut number: u64) {
    for k in 1..list.len() { list.swap(k, (number % (k as u64 + 1)) as usize); number /= k as u64 + 1; }
}

/// Each room from none to more than is needed, and work one short
fn rooms(document: &Tree, emit: Emit) {
    let text = document.plainly();
    for k in 0..4 {
        for len in (0..=60).chain([1000]) {
            let mut room = [60, 60, 60, 60, 3840];
            room[k] = len;
            emit(crate::case::Case::ReadTable { text: text.clone(), room });
        }
    }
    for work in [0, 1, 3839, 3840, 3841, 5000] { emit(crate::case::Case::ReadTable { text: text.clone(), room: [60, 60, 60, 60, work] }); }
}

/// The short document's bytes each any other, missing, twice, swapped with the next, after others, and last; of the longer ones with
/// blanks and escapes, fewer
fn every_byte(emit: Emit) {
    let [least, t, full] = documents();
    let mut r = Random::new(5);
    let dense = Style { blanks: 2, escapes: 6 };
    let texts = [(least.plainly(), true), (least.written(dense, &mut r), false), (t.plainly(), false), (full.plainly(), false), (full.written(dense, &mut r), false)];
    for (text, every) in texts {
        for at in 0..text.len() {
            let with = |bytes: &[u8], from: usize| roomy([&text[..at], bytes, &text[from..]].concat());
            for byte in 0..=255u8 { if every || b"\0\x1f \"\\{}[],:-+.eE09au\x7f\x80\xbf\xc2\xe0\xed\xf4\xff".contains(&byte) { emit(with(&[byte], at + 1)); } }
            emit(with(&[], at + 1));
            emit(with(&text[at..=at], at));
            emit(with(&[], text.len()));
            if at + 1 < text.len() { emit(with(&[text[at + 1], text[at]], at + 2)); }
            for inserted in [&b" "[..], b",", b"\"", b"\\", b"0", b"\xef\xbb\xbf", b"{\"\":0,", b"]"] { emit(with(inserted, at)); }
        }
    }
}

/// Some value of the document another, or a member missing or renamed
pub fn change(r: &mut Random, document: &mut Tree) {
    let k = r.size(document.nodes());
    let node = document.node(k);
    match (r.below(4), node.members()) {
        (0, Some(members)) if !members.is_empty() => { members.remove(r.size(members.len())); }
        (1, Some(members)) if !members.is_empty() => { let j = r.size(members.len()); members[j].0 = Tree::Text(content(r)); }
        (2, _) => *node = value(r, 2),
        (3, _) => *node = raw(r.pick(&NUMBERS)),
        _ => *node = raw(r.pick(&OTHERS)),
    }
}

/// A name of some object in the document there once more, escaped or not, with any value; in a member that is passed over, now and then
pub fn repeat(r: &mut Random, document: &mut Tree) {
    for _ in 0..20 {
        let k = r.size(document.nodes());
        let Some(members) = document.node(k).members().filter(|members| !members.is_empty()) else { continue };
        let (j, at, inner) = (r.size(members.len()), r.size(members.len() + 1), value(r, 1));
        let name = members[j].0.clone();
        let again = if r.one_in(2) { escaped(&name, r) } else { name.clone() };
        if r.one_in(4) {
            let twice = Tree::Object(vec![(name, raw(0)), (again, inner)]);
            return members.insert(at, (text("passed over"), Tree::List(vec![twice])));
        }
        return members.insert(at, (again, inner));
    }
}
