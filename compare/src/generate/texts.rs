//! Texts of tables: every production of JSON and every way to break it, tables in every form, each member missing or another, names
//! that come twice, all refusals, the limits and rooms, texts with bytes changed, and random ones. The names in them, and strings.

mod fields;
mod grammar;
pub mod sizes;
pub mod strings;
pub mod trees;

use super::{ Emit, tables };
use crate::{ case::{ self, Case }, random::Random, reference::{ table, texts::work_needed } };
use trees::{ PLAIN, Style, Tree, content, object, raw, text, value };

/// A text with room for all, and no more work than it needs
pub fn roomy(text: Vec<u8>) -> Case {
    let work = work_needed(text.len());
    Case::ReadTable { text, room: [60, 40, 56, 100, work] }
}

/// The texts that are the same in every run
pub fn fixed(emit: Emit) {
    grammar::fixed(emit);
    fields::fixed(emit);
    refusals(emit);
    sizes::fixed(emit);
}

/// A table that the text stands in, as a member that is passed over: it is accepted but for that member
pub fn around(inner: &[u8]) -> Vec<u8> { [b"{\"version\":1,\"x\":", inner, b",\"sources\":[],\"segments\":[]}"].concat() }

/// A list of two numbers
fn pair((a, b): (u64, u64)) -> Tree { Tree::List(vec![raw(a), raw(b)]) }

fn or_null<T>(value: Option<T>, tree: impl FnOnce(T) -> Tree) -> Tree { value.map_or(raw("null"), tree) }

/// The document of a table that is lent; none where it can't be written as one
pub fn document(r: &mut Random, lent: &case::Table) -> Option<Tree> {
    let table = table::Table::lent(lent).ok()?;
    let sources: Option<Vec<Tree>> = table.sources.iter().map(|s| source(r, s)).collect();
    let segments = table.segments.iter().map(|s| segment(r, s)).collect();
    let mut members = object([("version", raw(1)), ("sources", Tree::List(sources?)), ("segments", Tree::List(segments))]);
    if table.log {
        let name = if r.one_in(2) { raw("null") } else { Tree::Text(content(r)) };
        let log = object([("name", name), ("kind", Tree::Text(content(r))), ("size", raw(r.word())), ("crc32", raw(r.word() as u32))]);
        members.members()?.push((text("telemetry_log"), log));
    }
    Some(members)
}

fn source(r: &mut Random, s: &table::Source) -> Option<Tree> {
    let time = match &s.creation_time { None => raw("null"), Some(bytes) => text(std::str::from_utf8(bytes).ok()?) };
    let clock = or_null(s.clock.as_ref(), |c| object([("name", Tree::Text(content(r))), ("rate", pair(c.rate)), ("modulus", or_null(c.modulus, raw))]));
    let mut source = object([("name", Tree::Text(content(r))), ("size", raw(s.size)), ("frames", raw(s.frames)), ("fps", pair(s.fps)), ("creation_time", time), ("clock", clock)]);
    let origin = match s.origin { Ok(origin) => Some(raw(origin)), Err(_) if r.one_in(3) => Some(no_word(r)), Err(_) => None };
    source.members()?.extend(origin.map(|origin| (text("zcam_imu_origin_us"), origin)));
    Some(source)
}

/// A value that is no whole number of 64 bits
fn no_word(r: &mut Random) -> Tree { raw(r.pick(&["null", "-1", "-0", "1.0", "1e1", "18446744073709551616", "\"1\"", "true", "[]", "{}"])) }

fn segment(r: &mut Random, s: &table::Segment) -> Tree {
    let requested = if r.one_in(2) { raw("null") } else { object([("unit", text("frames")), ("start", raw(s.src_first_frame)), ("end", raw(r.word()))]) };
    object([
        ("source", raw(s.source)), ("src_first_frame", raw(s.src_first_frame)), ("frame_count", raw(s.frame_count)), ("out_first_frame", raw(s.out_first_frame)),
        ("src_start_us", raw(s.src_start)), ("out_start_us", raw(s.out_start)), ("duration_us", raw(s.duration)),
        ("src_capture_start_us", raw(s.src_capture_start)), ("out_capture_start_us", raw(s.out_capture_start)), ("capture_duration_us", raw(s.capture_duration)),
        ("requested", requested), ("start", Tree::Text(content(r))), ("entry", Tree::Text(content(r))), ("end", Tree::Text(content(r))),
        ("clock_shift", or_null(s.shift, raw)),
    ])
}

/// A table of one run of frames or two, mostly from one source
fn short(r: &mut Random) -> case::Table {
    let first = tables::Run { count: r.range(1, 40), start: 0, duration: r.below(2_000_000) as i64 };
    let second = tables::Run { count: r.range(1, 40), start: first.duration, duration: r.below(2_000_000) as i64 };
    if r.one_in(3) { tables::of_runs(r, &[first, second]) } else { tables::of_runs(r, &[first]) }
}

/// How a text is written: plainly, or with blanks and escapes
fn style(r: &mut Random) -> Style {
    match r.below(4) { 0 | 1 => PLAIN, 2 => Style { blanks: r.range(1, 8), escapes: 0 }, _ => Style { blanks: r.range(1, 40), escapes: r.range(1, 30) } }
}

/// A member that no reader knows, somewhere
fn unknown(r: &mut Random, document: &mut Tree) {
    for _ in 0..20 {
        let k = r.size(document.nodes());
        if let Some(members) = document.node(k).members() {
            let name = r.pick(&["", "x", "Version", "sony_ibis_template", "version ", "é", "versio\u{6e}1"]);
            let at = r.size(members.len() + 1);
            let inner = value(r, 3);
            return members.insert(at, (text(name), inner));
        }
    }
}

/// Rooms around what a table needs: mostly so much or more, now and then one short
fn rooms(r: &mut Random, table: &case::Table, len: usize) -> [usize; 5] {
    let needed = [table.sources.len(), table.segments.len(), table.times.len(), table.text.len(), work_needed(len)];
    let short = if r.one_in(8) { r.size(5) } else { 5 };
    std::array::from_fn(|k| match k {
        _ if k == short => needed[k].saturating_sub(1),
        4 => needed[k] + if r.one_in(8) { r.size(40) } else { 0 },
        _ => needed[k] + r.size(3),
    })
}

/// One table's text, as it is written in one of the ways
fn told(r: &mut Random, table: &case::Table, emit: Emit) {
    let Some(mut document) = document(r, table) else { return };
    if r.one_in(3) { unknown(r, &mut document); }
    if r.one_in(2) { document.shuffle(r); }
    let style = style(r);
    let text = document.written(style, r);
    let room = rooms(r, table, text.len());
    emit(Case::ReadTable { text, room });
}

/// Every pair of the refusals of a table, each also with a member that is missing
fn refusals(emit: Emit) {
    let mut r = Random::new(1);
    for (first, second) in (2..=17).flat_map(|a| (0..=17).map(move |b| (a, b))) {
        for _ in 0..if first == 2 || second == 2 { 1 } else { 8 } {
            let mut table = short(&mut r);
            tables::refused(&mut r, &mut table, first);
            if second > 0 { tables::refused(&mut r, &mut table, second); }
            told(&mut r, &table, emit);
            if r.one_in(4) && let Some(mut document) = document(&mut r, &table) {
                fields::change(&mut r, &mut document);
                emit(roomy(document.plainly()));
            }
        }
    }
}

/// One random text, or a few
pub fn cases(r: &mut Random, emit: Emit) {
    match r.below(64) {
        0..40 => for _ in 0..8 { grammar::random(r, emit) },
        40..46 => { let table = short(r); told(r, &table, emit) }
        46 => { let table = tables::good(r); told(r, &table, emit) }
        47..52 => {
            let (mut table, number) = (short(r), r.range(3, 17));
            tables::refused(r, &mut table, number);
            told(r, &table, emit);
        }
        52..57 => {
            let table = short(r);
            let Some(mut document) = document(r, &table) else { return };
            for _ in 0..r.range(1, 2) { fields::change(r, &mut document); }
            let style = style(r);
            emit(roomy(document.written(style, r)));
        }
        57..60 => {
            let table = short(r);
            let Some(mut document) = document(r, &table) else { return };
            fields::repeat(r, &mut document);
            let style = style(r);
            emit(roomy(document.written(style, r)));
        }
        60..63 => damaged_table(r, emit),
        _ => sizes::random(r, emit),
    }
}

/// A table's text with bytes changed, and the same of two of them joined
fn damaged_table(r: &mut Random, emit: Emit) {
    let (table, style) = (short(r), style(r));
    let Some(document) = document(r, &table) else { return };
    let mut text = document.written(style, r);
    if r.one_in(8) {
        let at = r.size(text.len());
        let other = document.written(PLAIN, r);
        text.truncate(at);
        text.extend(&other[r.size(other.len())..]);
    }
    for _ in 0..4 { emit(roomy(grammar::damaged(r, &text))); }
}
