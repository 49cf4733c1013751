//! JSON alone: short texts of all bytes and of all tokens, all short numbers, characters and escapes, lists and objects up to too
//! many, what is JSON and what isn't at every place of a table; and random ones with bytes changed.

use super::{ Emit, around, roomy, style, trees::{ NUMBERS, value } };
use crate::random::Random;

/// What is JSON by itself
const GOOD: [&[u8]; 40] = [
    b"null", b"true", b"false", b"[]", b"{}", b" [ ] ", b"\t{\n}\r", b"[1,2]", b"[ 1 , 2 ]", b"[[],[[]]]", b"{\"\":0}", b"{\"a\":1,\"b\":2}", b"{ \"a\" : 1 , \"b\" : { } }",
    b"{\"a\":{\"a\":1},\"b\":{\"a\":1}}", b"\"\"", b"\" \"", b"\"\\\"\\\\\\/\\b\\f\\n\\r\\t\"", b"\"\\u0000\"", b"\"\\uFFFF\"", b"\"\\ud800\\udc00\"", b"\"\\uDBFF\\uDFFF\"",
    b"\"\\uD834\\udd1e\\u0061\"", b"\"\x7f\"", b"\"\xc2\x80\"", b"\"\xdf\xbf\"", b"\"\xe0\xa0\x80\"", b"\"\xed\x9f\xbf\"", b"\"\xee\x80\x80\"", b"\"\xef\xbb\xbf\"", b"\"\xef\xbf\xbf\"",
    b"\"\xf0\x90\x80\x80\"", b"\"\xf4\x8f\xbf\xbf\"", b"-0", b"-0.0e-0", b"123456789012345678901234567890", b"1E+2", b"0.1", b"\"/\"", b"\"\\/\"", b"[null,true,false,0,\"\",[],{}]",
];

/// What isn't
const BAD: [&[u8]; 104] = [
    b"", b" ", b"nul", b"nulll", b"Null", b"NULL", b"tru", b"truee", b"fals", b"nan", b"NaN", b"Infinity", b"-Infinity", b"undefined", b"'a'", b"a", b"0x1", b"1 2", b"1,", b",1", b"[] []",
    b"[", b"]", b"[1", b"[1,", b"[1,]", b"[,1]", b"[,]", b"[1,,2]", b"[1 2]", b"[1;2]", b"[1}", b"{1]", b"[\"a\"", b"[[]", b"[]]", b"[1]x", b"{", b"}", b"{}}", b"{\"a\"", b"{\"a\":", b"{\"a\":1", b"{\"a\":1,",
    b"{\"a\":1,}", b"{,\"a\":1}", b"{\"a\"}", b"{\"a\":}", b"{:1}", b"{a:1}", b"{'a':1}", b"{1:1}", b"{null:1}", b"{\"a\"::1}", b"{\"a\" 1}", b"{\"a\",1}", b"{\"a\":1 \"b\":2}", b"{\"a\":1;\"b\":2}",
    b"{\"a\":1,,\"b\":2}", b"{[]:1}", b"{\"a\":1 2}", b"\"", b"\"a", b"\"\\\"", b"\"\\", b"\"\\x\"", b"\"\\a\"", b"\"\\0\"", b"\"\\'\"", b"\"\\U0061\"", b"\"\\u\"", b"\"\\u0\"", b"\"\\u00\"", b"\"\\u000\"",
    b"\"\\u000g\"", b"\"\\u 061\"", b"\"\\u+061\"", b"\"\\uD800\"", b"\"\\uDBFF\"", b"\"\\uDC00\"", b"\"\\uDFFF\"", b"\"\\uDC00\\uD800\"", b"\"\\uD800\\uD800\"", b"\"\\uD800a\"", b"\"\\uD800\\n\"", b"\"\\uD800\\u0061\"",
    b"\"\\uD800\\uDC0\"", b"\"\n\"", b"\"\t\"", b"\"\0\"", b"\"\x1f\"", b"\"\x80\"", b"\"\xc0\x80\"", b"\"\xc1\xbf\"", b"\"\xe0\x9f\xbf\"", b"\"\xed\xa0\x80\"", b"\"\xf0\x8f\xbf\xbf\"", b"\"\xf4\x90\x80\x80\"", b"\"\xf5\x80\x80\x80\"",
    b"\"\xc2\"", b"\"\xe0\xa0\"", b"\xef\xbb\xbf{}", b"/**/1", b"1//",
];

/// Numbers that are none
const NO_NUMBERS: [&str; 30] = [
    "01", "00", "-01", "1.", "-1.", ".5", "-.5", "+1", "+", "-", "--1", "-+1", "1e", "1e+", "1E-", "1e1.0", "1.e1", ".e1", "e1", "1.5.5", "1e1e1", "0x0", "1_0", "1,0", "0.", "-0.", "0e", "1 .5", "- 1", "18446744073709551616.",
];

pub fn fixed(emit: Emit) {
    let inner = GOOD.into_iter().chain(BAD).map(<[u8]>::to_vec).chain(NUMBERS.into_iter().chain(NO_NUMBERS).map(|number| number.as_bytes().to_vec()));
    for inner in inner { everywhere(&inner, emit); }
    for_all(&(0..=255).map(|byte| vec![byte]).collect::<Vec<_>>(), 2, &mut |text| emit(roomy(text.to_vec())));
    let tokens = ["[", "]", "{", "}", ":", ",", "\"", "\"\"", "\"a\"", "\\", "\\u", "0", "1", "-", "+", ".", "e", "true", "null", "a", " ", "\n"];
    for_all(&tokens.map(|token| token.as_bytes().to_vec()), 4, &mut |text| emit(roomy(text.to_vec())));
    let digits = ["-", "+", ".", "e", "E", "0", "1", "9"];
    for_all(&digits.map(|digit| digit.as_bytes().to_vec()), 5, &mut |text| {
        emit(roomy(text.to_vec()));
        if text.len() <= 4 { emit(roomy(around(text))); }
    });
    characters(emit);
    escapes(emit);
    depths(emit);
    names(emit);
}

/// The bytes alone, in lists and objects, as a name, and at every kind of place of a table
fn everywhere(inner: &[u8], emit: Emit) {
    let source = b"{\"name\":\"\",\"size\":0,\"frames\":1,\"fps\":[1,1],\"creation_time\":null,\"clock\":null";
    let segment = b"{\"source\":0,\"src_first_frame\":0,\"frame_count\":1,\"out_first_frame\":0,\"src_start_us\":0,\"out_start_us\":0,\"duration_us\":0,\"src_capture_start_us\":0,\"out_capture_start_us\":0,\"capture_duration_us\":0,\"start\":\"\",\"entry\":\"\",\"end\":\"\",\"clock_shift\":null,\"requested\":";
    let table = |source_more: &[u8], requested: &[u8], more: &[u8]| [
        b"{\"version\":1,\"sources\":[", &source[..], source_more, b"}],\"segments\":[", segment, requested, b"}]", more, b"}",
    ].concat();
    let of = |parts: &[&[u8]]| parts.concat();
    let texts = [
        inner.to_vec(),
        of(&[b" ", inner, b"\n"]),
        of(&[b"[", inner, b"]"]),
        of(&[b"[0,", inner, b",0]"]),
        of(&[b"{\"a\":", inner, b"}"]),
        of(&[b"{\"a\":0,\"b\":", inner, b",\"c\":0}"]),
        of(&[b"{", inner, b":0}"]),
        of(&[b"{\"version\":", inner, b"}"]),
        of(&[b"{\"version\":1,\"sources\":", inner, b",\"segments\":[]}"]),
        of(&[inner, b"{\"version\":1,\"sources\":[],\"segments\":[]}"]),
        of(&[b"{\"version\":1,\"sources\":[],\"segments\":[]}", inner]),
        around(inner),
        table(b"", b"null", &[b",\"x\":", inner].concat()),
        table(b"", b"null", &[b",\"x\":[[", inner, b"]]"].concat()),
        table(b"", b"null", &[b",", inner, b":0"].concat()),
        table(&[b",\"x\":", inner].concat(), b"{}", b""),
        table(&[b",\"zcam_imu_origin_us\":", inner].concat(), b"{\"a\":[]}", b""),
        table(b"", inner, b""),
        table(b"", &[b"{\"a\":", inner, b"}"].concat(), b""),
        table(b"", b"null", &[b",\"telemetry_log\":", inner].concat()),
    ];
    for text in texts { emit(roomy(text)); }
}

/// All rows of up to so many parts
fn for_all(parts: &[Vec<u8>], most: usize, take: &mut dyn FnMut(&[u8])) {
    fn longer(parts: &[Vec<u8>], left: usize, row: &mut Vec<u8>, take: &mut dyn FnMut(&[u8])) {
        take(row);
        if left == 0 { return; }
        for part in parts {
            row.extend(part);
            longer(parts, left - 1, row, take);
            row.truncate(row.len() - part.len());
        }
    }
    longer(parts, most, &mut Vec::new(), take);
}

fn string(content: &[u8]) -> Vec<u8> { [b"\"", content, b"\""].concat() }

/// Every two bytes in a string; every third byte after each lead of three or four with the second bytes about its limits, likewise a fourth;
/// the same torn by the end of the string and of the text
fn characters(emit: Emit) {
    let mut take = |content: &[u8]| emit(roomy(string(content)));
    for first in 0..=255u8 { for second in 0..=255 { take(&[first, second]); } }
    let edges = [0x22, 0x5c, 0x61, 0x7f, 0x80, 0x8f, 0x90, 0x9f, 0xa0, 0xbf, 0xc0, 0xff];
    for lead in 0xdf..=0xf8u8 {
        for second in edges {
            for third in 0..=255 { take(&[lead, second, third]); }
            for third in edges { for fourth in edges { take(&[lead, second, third, fourth]); take(&[b'a', lead, second, third, fourth, b'a']); } }
        }
    }
    for text in [&b"\"\xc3"[..], b"\"\xe2\x82", b"\"\xf0\x9f\x98", b"\"\xf0\x9f\x98\x80", b"\"\xed\xa0\x80\xed\xb0\x80\"", b"\"\\\xc3\xa9\"", b"\"\\u\xc3\xa900\""] {
        emit(roomy(text.to_vec()));
        emit(roomy(around(text)));
    }
}

/// Every escape of four digits, in either case; pairs of all that lie about the limits of surrogates; every letter after a backslash
fn escapes(emit: Emit) {
    for unit in 0..=0xffffu32 {
        emit(roomy(string(format!("\\u{unit:04x}").as_bytes())));
        if unit % 7 == 0 { emit(roomy(string(format!("\\u{unit:04X}\\udc00").as_bytes()))); }
    }
    let edges = [0, 0x61, 0xd7ff, 0xd800, 0xd801, 0xdbfe, 0xdbff, 0xdc00, 0xdc01, 0xdffe, 0xdfff, 0xe000, 0xffff];
    for high in edges {
        for low in edges {
            emit(roomy(string(format!("\\u{high:04x}\\u{low:04X}").as_bytes())));
            emit(roomy(format!("{{\"\\u{high:04x}\\u{low:04X}\":0,\"\\u{low:04x}\":0}}").into_bytes()));
            for last in edges { emit(roomy(string(format!("\\u{high:04x}\\u{low:04X}\\u{last:04x}").as_bytes()))); }
        }
    }
    for letter in 0..=255 { emit(roomy(string(&[b'\\', letter]))); emit(roomy(string(&[b'\\', letter, b'0', b'0', b'0', b'0']))); }
    for at in 0..6 { for byte in 0..=255 { let mut escape = *b"\\u00Ab"; escape[at] = byte; emit(roomy(string(&escape))); } }
}

/// Lists and objects, each of them or in turn, about the most that may be open, round nothing, a scalar or a string; alone, in a
/// table, twice, and with the last one not closed; and many that are opened
fn depths(emit: Emit) {
    let kinds: [fn(usize, usize) -> bool; 6] = [|_, _| true, |_, _| false, |k, _| k % 2 == 0, |k, _| k % 2 == 1, |k, depth| k + 1 == depth, |k, depth| k + 1 != depth];
    for depth in 28..36 {
        for (is_list, inner) in kinds.into_iter().flat_map(|kind| ["", "0", "\"[{\"", "null,0"].map(|inner| (kind, inner))) {
            let whole = nested(depth, |k| is_list(k, depth), inner).into_bytes();
            emit(roomy(around(&whole)));
            emit(roomy([b"[", &whole[..], b",", &whole, b"]"].concat()));
            emit(roomy(whole[..whole.len() - 1].to_vec()));
            emit(roomy(whole));
        }
    }
    for depth in [64, 126, 127, 128, 129, 200, 5000] {
        for open in ["[", "{\"a\":"] { emit(roomy(open.repeat(depth).into_bytes())); }
        for is_list in [true, false] { emit(roomy(nested(depth.min(200), |_| is_list, "0").into_bytes())); }
    }
}

/// The inner text in so many lists and objects, the outermost first
fn nested(depth: usize, is_list: impl Fn(usize) -> bool, inner: &str) -> String {
    (0..depth).rev().fold(inner.to_owned(), |text, k| match (is_list(k), text.as_str()) {
        (true, _) => format!("[{text}]"),
        (false, "") => "{}".into(),
        (false, _) => format!("{{\"a\":{text}}}"),
    })
}

/// Names that are the same or all but, in one object, in two, and one inside the other
fn names(emit: Emit) {
    let names = [
        "", "a", "b", "aa", "A", "\\u0061", "\\u0041", "\\u0061a", "a\\u0000", "\\u0000", "\\u0000\\u0000", "/", "\\/", "\\u002f", "\\u002F", "é", "\\u00e9", "\\u00E9", "e\u{301}", "\\n", "\\u000a", "\\u000A", "\\\"", "\\u0022",
        "\\\\", "\\u005c", "\\\\u0061", "𝄞", "\\ud834\\udd1e", "\\uD834\\uDD1E", "\u{ffff}", "\\uffff", "\u{10ffff}", "\\udbff\\udfff", "version", "\\u0076ersion",
    ];
    for first in names {
        for second in names {
            for text in [
                format!("{{\"{first}\":0,\"{second}\":0}}"),
                format!("[{{\"x\":[],\"{first}\":0,\"y\":{{}},\"{second}\":0}}]"),
                format!("{{\"{first}\":{{\"{second}\":0}}}}"),
                format!("[{{\"{first}\":0}},{{\"{second}\":0}}]"),
                format!("{{\"{first}\":{{\"{first}\":0,\"{second}\":0}},\"x\":1}}"),
            ] { emit(roomy(text.into_bytes())); }
        }
    }
}

/// A random value alone or in a table, as it is written, or with bytes changed
pub fn random(r: &mut Random, emit: Emit) {
    let (depth, style) = (r.size(4), style(r));
    let mut inner = value(r, depth).written(style, r);
    for _ in 0..r.below(3) { inner = damaged(r, &inner); }
    emit(roomy(if r.one_in(3) { around(&inner) } else { inner }));
}

/// What is put in or over: tokens and parts of them
const PARTS: [&[u8]; 46] = [
    b"{", b"}", b"[", b"]", b",", b":", b"\"", b"\\", b" ", b"\n", b"0", b"1", b"-", b"+", b".", b"e", b"E", b"null", b"true", b"false", b"\"\"", b"\"a\":0,", b",0", b"{\"\":", b"\\u", b"\\u0061", b"\\ud800", b"\\udc00", b"\\\"",
    b"\xc3\xa9", b"\xe2\x82\xac", b"\xf0\x9d\x84\x9e", b"\xed\xa0\x80", b"\xc0\x80", b"\x80", b"\xff", b"\0", b"\x1f", b"\x7f", b"\xef\xbb\xbf", b"18446744073709551616", b"9223372036854775808", b"1e400", b"\"version\":1", b"[[[[[[[[", b"]]]]]]]]",
];

/// The bytes with a part put in, taken out, twice, elsewhere or written over, a byte changed, or cut short
pub fn damaged(r: &mut Random, bytes: &[u8]) -> Vec<u8> {
    let at = r.size(bytes.len() + 1);
    let len = r.size(bytes.len() - at + 1).min(if r.one_in(4) { usize::MAX } else { 4 });
    let (before, part, after) = (&bytes[..at], &bytes[at..at + len], &bytes[at + len..]);
    let token = r.pick(&PARTS);
    match r.below(8) {
        0 | 1 => [before, token, part, after].concat(),
        2 => [before, token, after].concat(),
        3 => [before, after].concat(),
        4 => [before, part, part, after].concat(),
        5 => before.to_vec(),
        6 => { let rest = [before, after].concat(); let to = r.size(rest.len() + 1); [&rest[..to], part, &rest[to..]].concat() }
        _ => {
            let mut changed = bytes.to_vec();
            if let Some(byte) = changed.get_mut(at) { *byte = match r.below(3) { 0 => r.bits() as u8, 1 => *byte ^ 1 << r.below(8), _ => byte.wrapping_add(1) } }
            changed
        }
    }
}
