//! The names of a table's sources, and strings alone: every character and escape, every offset of short texts, whatever stands before
//! and after a string, each room about what is needed, and the lengths about the most.

use super::{ Emit, grammar, trees::{ Style, Tree, content } };
use crate::{ case::{ Case, SOURCE_WORDS }, generate::room, random::Random, reference::{ json, texts::{ MOST_TEXT, work_needed } } };

/// Contents as they stand between quotation marks
const CONTENTS: [&str; 24] = [
    "", "a", "C0539.MP4", " ", "é", "€", "𝄞", "\u{ffff}", "\u{10ffff}", "\u{7f}", "\\\"", "\\\\", "a\\\\", "\\/", "\\b\\f\\n\\r\\t", "\\u0000", "\\u00e9", "\\u00E9x", "\\u20aC",
    "\\ud834\\udd1e", "\\udbff\\uDFFFé\\u0061", "name", "\\u006eame", "{\\\"name\\\":\\\"x\\\"}",
];

/// A text of `read_table` for `source_names`, with as much of its room for two words as there was for thirteen
fn named(case: Case) -> Case {
    if let Case::ReadTable { text, room } = case { Case::SourceNames { text, room: [room[0] * 2 / SOURCE_WORDS, room[4]] } } else { case }
}

/// Names: all texts of tables, and each content at every place of a source, in tables that are refused as tables too
pub fn fixed_names(emit: Emit) {
    super::fixed(&mut |case| emit(named(case)));
    let text = |sources: &[String], more: &str| format!("{{\"version\":1,\"sources\":[{}],\"segments\":[]{more}}}", sources.join(",")).into_bytes();
    let mut take = |text: Vec<u8>, names| { let work = work_needed(text.len()); emit(Case::SourceNames { text, room: [names, work] }) };
    for content in CONTENTS {
        for source in sources(content) {
            let other = source.replace(content, "other");
            for list in [vec![source.clone()], vec![source.clone(), other.clone()], vec![other.clone(), source.clone(), other]] {
                for names in 0..=2 * list.len() + 2 { take(text(&list, ""), names); }
                take(text(&list, ",\"telemetry_log\":{\"name\":\"log\",\"kind\":\"\",\"size\":0,\"crc32\":0}"), 2 * list.len());
                take(text(&list, ",\"telemetry_log\":{\"name\":0}"), 2 * list.len());
                take(text(&list, ",\"x\":[{\"sources\":[{\"name\":\"no\"}],\"name\":\"no\"}]"), 2 * list.len());
            }
        }
    }
    for names in 0..3 { take(text(&[], ""), names); }
    for not_text in ["null", "0", "[]", "{}", "[\"a\"]", "true"] { take(text(&[sources("a")[0].replace("\"a\"", not_text)], ""), 2); }
}

/// Sources with a name: first, last and in the middle of the members, blanks around it, its own name escaped, and other names about
fn sources(content: &str) -> [String; 6] {
    let rest = "\"size\":1,\"frames\":0,\"fps\":[0,0],\"creation_time\":\"\"";
    [
        format!("{{\"name\":\"{content}\",{rest},\"clock\":null}}"),
        format!("{{{rest},\"clock\":{{\"name\":\"no\",\"rate\":[0,0],\"modulus\":null}},\"name\":\"{content}\"}}"),
        format!("{{ {rest} , \"name\" : \"{content}\"\n,\t\"clock\":null}}"),
        format!("{{{rest},\"n\\u0061m\\u0065\":\"{content}\",\"clock\":null}}"),
        format!("{{\"x\":{{\"name\":\"no\"}},\"name \":\"no\",\"name\":\"{content}\",{rest},\"clock\":null,\"y\":[{{\"name\":\"no\"}}]}}"),
        format!("{{\"nam\":\"no\",\"Name\":\"no\",\"name\\u0000\":\"no\",{rest},\"name\":\"{content}\",\"clock\":null}}"),
    ]
}

/// One of the random texts of tables
pub fn random_names(r: &mut Random, emit: Emit) { super::cases(r, &mut |case| emit(named(case))); }

/// A string of a text, with just the room that it needs, or where there is none with room for all
fn just(text: Vec<u8>, at: usize) -> Case {
    let room = needed(&text, at as u64);
    Case::JsonString { text, at: at as u64, room }
}

fn needed(text: &[u8], at: u64) -> usize { json::string_at(text, at).map_or(text.len(), |string| string.content.len()) }

/// Strings: each that stands in a short text of `read_table`, and those of `CONTENTS` at every offset
pub fn fixed_strings(emit: Emit) {
    grammar::fixed(&mut |case| {
        let Case::ReadTable { text, .. } = case else { return };
        if text.len() > 64 { return; }
        for at in marks(&text).take(8) { emit(just(text.clone(), at)); }
    });
    for content in CONTENTS { around(content.as_bytes(), emit); }
    for content in [&b"\x1f"[..], b"\n", b"\\", b"\\x", b"\\u12", b"\\ud800", b"\\ud800\\u0041", b"\\udc00", b"\x80", b"\xc0\x80", b"\xc3", b"\xe2\x82", b"\xed\xa0\x80", b"\xf4\x90\x80\x80"] { around(content, emit); }
    lengths(emit);
}

/// Where quotation marks stand
fn marks(text: &[u8]) -> impl Iterator<Item = usize> + '_ { text.iter().enumerate().filter(|(_, byte)| **byte == b'"').map(|(at, _)| at) }

/// Offsets that no text has
const FAR: [u64; 8] = [MOST_TEXT as u64, u32::MAX as u64, 1 << 32, i64::MAX as u64 - 1, i64::MAX as u64, 1 << 63, u64::MAX - 1, u64::MAX];

/// A string by itself, in JSON, and between bytes that are none; cut short at every place; at every offset, with every room
fn around(content: &[u8], emit: Emit) {
    let between: [(&[u8], &[u8]); 8] = [(b"", b""), (b"{\"version\":", b"}"), (b"\"", b"\""), (b"\\", b"\\"), (b"\xff\xc3", b"\x80\xff"), (b"\\\\\"", b"\x00"), (b"\xe2\x82", b"\xac"), (b"[[[", b"u0061")];
    for (before, after) in between {
        let text = [before, b"\"", content, b"\"", after].concat();
        for at in (0..=text.len() as u64 + 2).chain(FAR) {
            let most = needed(&text, at);
            for room in 0..=most + 2 { emit(Case::JsonString { text: text.clone(), at, room }); }
            emit(Case::JsonString { text: text.clone(), at, room: 1000 });
        }
        for end in before.len()..text.len() { emit(just(text[..end].to_vec(), before.len())); }
    }
}

/// Texts about 1,048,576 bytes: one string that fills them, of bytes or of escapes, closed or not, or the last bytes alone
fn lengths(emit: Emit) {
    for len in [MOST_TEXT - 1, MOST_TEXT, MOST_TEXT + 1, MOST_TEXT + 2, 2 * MOST_TEXT] {
        let filled = |part: &str| {
            let mut text = [b"\"", part.repeat((len - 2) / part.len()).as_bytes()].concat();
            text.resize(len - 1, b'x');
            text.push(b'"');
            text
        };
        for text in [filled("x"), filled("€"), filled("\\u00e9"), filled("\\ud834\\udd1e"), filled("\\\\"), filled("\\\""), b"x".repeat(len), [b"\"", &b"x".repeat(len - 1)[..]].concat()] {
            let most = needed(&text, 0);
            for room in [most, most - 1, most + 1, 0] { emit(Case::JsonString { text: text.clone(), at: 0, room }); }
            for at in [1, len as u64 - 2, len as u64 - 1, len as u64, len as u64 + 1, u64::MAX] { emit(Case::JsonString { text: text.clone(), at, room: 3 }); }
        }
        let last = [&b"\xff".repeat(len - 4)[..], b"\"ab\""].concat();
        for room in 0..4 { emit(Case::JsonString { text: last.clone(), at: len as u64 - 4, room }); }
    }
}

/// A random string between other bytes, now and then damaged, asked for at its quotation mark or anywhere else
pub fn random_string(r: &mut Random, emit: Emit) {
    let escapes = r.pick(&[0, 0, 1, 2, 5]);
    let inner: String = (0..r.below(6)).map(|_| content(r)).collect();
    let mut quoted = Tree::Text(inner).written(Style { blanks: 0, escapes }, r);
    if r.one_in(3) { quoted = grammar::damaged(r, &quoted); }
    let (before, after) = (other(r), other(r));
    let text = [&before[..], &quoted, &after].concat();
    let at = match r.below(16) {
        0 => r.word(),
        1 => r.below(text.len() as u64 + 2),
        2 | 3 => { let all: Vec<usize> = marks(&text).collect(); if all.is_empty() { 0 } else { r.pick(&all) as u64 } }
        _ => before.len() as u64,
    };
    let room = room(r, needed(&text, at));
    emit(Case::JsonString { text, at, room });
}

/// What may stand beside a string: nothing, JSON, parts of it, or any bytes
fn other(r: &mut Random) -> Vec<u8> {
    match r.below(4) {
        0 => vec![],
        1 => super::value(r, 1).plainly(),
        2 => { let value = super::value(r, 1).plainly(); grammar::damaged(r, &value) }
        _ => (0..r.below(6)).map(|_| r.bits() as u8).collect(),
    }
}
