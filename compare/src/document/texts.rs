//! The shortest texts for each refusal of a table's text (but 2 and 60, whose texts are long), and accepted ones; names and strings in
//! them.

use super::Worked;
use crate::{ case::Case, generate::texts::roomy };

const SOURCE: &str = r#"{"name":"","size":0,"frames":1,"fps":[1,1],"creation_time":null,"clock":null}"#;
const SEGMENT: &str = r#"{"source":0,"src_first_frame":0,"frame_count":1,"out_first_frame":0,"src_start_us":0,"out_start_us":0,"duration_us":0,"src_capture_start_us":0,"out_capture_start_us":0,"capture_duration_us":0,"requested":null,"start":"","entry":"","end":"","clock_shift":null}"#;

/// A clip's table with all that may be there: blanks, members in another order, escapes in names and strings, a log, a clock that
/// wraps, a creation time with an escape in it, an origin, and members that are passed over, one of them 31 lists deep
const FULL: &str = r#" {"telemetry_log": {"crc32":4294967295,"size":18446744073709551615,"kind":"gcsv","name":null},
 "segments":[{"clock_shift":-3,"end":"e\n","entry":"idr","start":"","requested":{"unit":"frames"},"capture_duration_us":4,"out_capture_start_us":0,"src_capture_start_us":8,"duration_us":4,"out_start_us":0,"src_start_us":9223372036854775803,"out_first_frame":0,"frame_count":2,"src_first_frame":5,"source":0}],
 "sources":[{"clock":{"modulus":null,"rate":[1000,1],"name":"\ud834\udd1e"},"creation_time":"2024-02-29T23:59:59\u005a","\u0066ps":[30000,1001],"frames":7,"size":469906891,"name":"C0538.MP4","zcam_imu_origin_us":18446744073709551615}],
 "x":[[[[[[[[[[[[[[[[[[[[[[[[[[[[[[[-0.5e+1]]]]]]]]]]]]]]]]]]]]]]]]]]]]]]],"\u0076ersion":1} "#;

/// The table S of RULES 15.11
const S: &str = r#"{"version":1,"sources":[{"name":"C0539.MP4","size":9,"frames":5,"fps":[25,1],"creation_time":null,"clock":null}],
 "segments":[{"source":0,"src_first_frame":1,"frame_count":2,"out_first_frame":0,"src_start_us":40000,
 "out_start_us":0,"duration_us":80000,"src_capture_start_us":40000,"out_capture_start_us":0,
 "capture_duration_us":80000,"requested":null,"start":"","entry":"","end":"","clock_shift":null}]}"#;

fn table(sources: &str, segments: &str, more: &str) -> String { format!(r#"{{"version":1,"sources":[{sources}],"segments":[{segments}]{more}}}"#) }

/// A segment, of which some members are others
fn segment(changes: &[(&str, &str)]) -> String { changes.iter().fold(SEGMENT.to_owned(), |segment, (from, to)| changed(&segment, from, to)) }
fn source(from: &str, to: &str) -> String { changed(SOURCE, from, to) }

fn changed(text: &str, from: &str, to: &str) -> String {
    assert!(text.contains(from), "{from} isn't in {text}");
    text.replacen(from, to, 1)
}

pub fn worked() -> Vec<Worked> { [tables(), names(), strings()].concat() }

/// Where names stand, in tables that are refused as tables too
fn names() -> Vec<Worked> {
    let of = |text: &str, names, work, answer| (Case::SourceNames { text: text.into(), room: [names, work] }, answer);
    vec![
        (roomy(S.into()), "0 0 2 1 1 0 0 5 25 1 0 0 0 0 0 0 0 9 0 0 0 1 2 0 0 40000 0 80000 40000 0 80000 0"),
        of(S, 2, 3840, "0 0 1 33 9"),
        of(S, 2, 3839, "32 1"),
        of(S, 1, 3840, "32 0"),
        of(&S[..S.len() - 1], 2, 3840, "61 0"),
        of(&changed(S, "1,", "1,\"version\":1,"), 2, 3840, "62 0"),
        of(&changed(S, "1", "1.0"), 2, 3840, "63 0"),
        of(&changed(S, "\"entry\":\"\",", ""), 0, 3840, "64 0"),
        of(&changed(S, "\"frames\":5", "\"frames\":0"), 2, 3840, "0 0 1 33 9"),
        of(&changed(S, "\"C0539.MP4\"", " \"\\u00e9\""), 2, 3840, "0 0 1 34 6"),
        of(&table("", "", ""), 0, 3840, "0 0 0"),
    ]
}

/// Strings at an offset of a text, whatever stands before and after
fn strings() -> Vec<Worked> {
    let of = |text: &[u8], at, room, answer| (Case::JsonString { text: text.into(), at, room }, answer);
    vec![
        of(S.as_bytes(), 32, 9, "0 0 9 43303533392e4d5034"),
        of(S.as_bytes(), 32, 8, "32 0"),
        of(S.as_bytes(), 31, 9, "61 0"),
        of(b"\"\"", 0, 0, "0 0 0"),
        of(b"\xff\"\\u00e9\"\xff", 1, 6, "0 0 2 c3a9"),
        of(b"\"\\ud834\\udd1e\"", 0, 4, "0 0 4 f09d849e"),
        of(b"\"\\ud834\"", 0, 9, "61 0"),
        of(b"\"a", 0, 9, "61 0"),
        of(b"\"a\"", 2, 9, "61 0"),
        of(b"\"a\"", 3, 9, "61 0"),
        of(b"\"a\"", u64::MAX, 9, "61 0"),
        of(b"", 0, 9, "61 0"),
    ]
}

fn tables() -> Vec<Worked> {
    let of = |text: &str, answer| (roomy(text.into()), answer);
    let lent = |text: &str, room, answer| (Case::ReadTable { text: text.into(), room }, answer);
    let sources = |sources: &str, answer| of(&table(sources, "", ""), answer);
    let segments = |list: &[String], answer| of(&table(SOURCE, &list.join(","), ""), answer);
    let clocked = source("\"clock\":null", r#""clock":{"name":"","rate":[1,1],"modulus":2}"#);
    let shifted = |shift| table(&clocked, &segment(&[("clock_shift\":null", shift)]), "");
    let minute = "0 0 1 1 1 0 0 1 1 1 0 0 0 0 0 0 0 0 0 0 0 0 1 0 0 0 0 0 0 0 0 0";
    let two = [segment(&[]), segment(&[("out_first_frame\":0", "out_first_frame\":1"), ("out_start_us\":0", "out_start_us\":1")])];
    let least = table(SOURCE, SEGMENT, "");
    vec![
        lent("", [0, 0, 0, 0, 3839], "32 1"),
        lent("{", [0, 0, 0, 0, 3840], "61 0"),
        of("", "61 0"),
        of("01", "61 0"),
        of("\u{feff}{}", "61 0"),
        of("{}{}", "61 0"),
        of(r#"{"":0,"":0"#, "61 0"),
        of(r#""\ud800""#, "61 0"),
        of(&("[".repeat(33) + &"]".repeat(33)), "61 0"),
        of(&("[".repeat(32) + "0" + &"]".repeat(32)), "63 0"),
        of(r#"{"":0,"":0}"#, "62 0"),
        of(r#"{"version":1,"\u0076ersion":1}"#, "62 0"),
        of(r#"[{"a":{"b":0,"b":0}}]"#, "62 0"),
        of("0", "63 0"),
        of(r#"{"version":1.0}"#, "63 0"),
        of(r#"{"version":2,"sources":[],"segments":[]}"#, "63 0"),
        of(r#"{"version":1}"#, "64 0"),
        of(&table("", "0", ""), "64 0"),
        of(&table("", "", r#","telemetry_log":null"#), "64 0"),
        of(&table("", "", ""), "3 0"),
        lent(&table(SOURCE, "", ""), [12, 0, 0, 0, 3840], "32 0"),
        lent(&table(SOURCE, "", ""), [13, 0, 0, 0, 3840], "8 0"),
        sources(&source("frames\":1", "frames\":0"), "4 0"),
        sources(&source("creation_time\":null", "creation_time\":\"\""), "5 0"),
        lent(&table(&source("creation_time\":null", r#"creation_time":"\u00e9""#), "", ""), [13, 0, 0, 1, 3840], "32 0"),
        sources(&source("\"clock\":null", r#""clock":{"name":"","rate":[1,1],"modulus":0}"#), "6 0"),
        of(&table(SOURCE, "", r#","telemetry_log":{"name":null,"kind":"","size":0,"crc32":0}"#), "7 0"),
        segments(&[segment(&[("source\":0", "source\":1")])], "9 0"),
        segments(&[segment(&[("frame_count\":1", "frame_count\":0")])], "10 0"),
        segments(&[segment(&[("out_first_frame\":0", "out_first_frame\":18446744073709551615")])], "11 0"),
        segments(&[segment(&[("frame_count\":1", "frame_count\":2")])], "12 0"),
        segments(&[segment(&[("duration_us\":0", "duration_us\":-1")])], "13 0"),
        segments(&[segment(&[("src_start_us\":0", "src_start_us\":9223372036854775807"), ("duration_us\":0", "duration_us\":1")])], "14 0"),
        segments(&[segment(&[("out_first_frame\":0", "out_first_frame\":1")])], "15 0"),
        segments(&two, "16 1"),
        of(&table(&clocked, SEGMENT, ""), "17 0"),
        of(&shifted("clock_shift\":2"), "17 0"),
        of(&shifted("clock_shift\":-0"), "64 0"),
        of(&shifted("clock_shift\":1"), "0 0 1 1 1 0 0 1 1 1 0 0 0 2 1 1 2 0 0 0 0 0 1 0 1 0 0 0 0 0 0 1"),
        of(&least, minute),
        lent(&least, [13, 5, 7, 0, 3840], minute),
        lent(&least, [13, 4, 7, 0, 3840], "32 0"),
        lent(&least, [13, 5, 6, 0, 3840], "32 0"),
        of(&table(&source("null}", r#"null,"zcam_imu_origin_us":1.0,"x":[{}]}"#), SEGMENT, ""), minute),
        of(
            FULL,
            "0 0 2 1 1 20 1 7 30000 1001 1 0 20 1 1000 1 0 469906891 1 18446744073709551615 0 5 2 0 1 9223372036854775803 0 4 8 0 4 -3 \
             323032342d30322d32395432333a35393a35395a",
        ),
    ]
}
