//! A table's text: what is written reads back, and what is broken, incomplete or of another version is refused.
use segment_table::*;

/// S of RULES 15.11: one source of 5 frames, one segment of 2.
const S: &str = r#"{"version":1,"sources":[{"name":"C0539.MP4","size":9,"frames":5,"fps":[25,1],"creation_time":null,"clock":null}],
"segments":[{"source":0,"src_first_frame":1,"frame_count":2,"out_first_frame":0,"src_start_us":40000,
"out_start_us":0,"duration_us":80000,"src_capture_start_us":40000,"out_capture_start_us":0,
"capture_duration_us":80000,"requested":null,"start":"","entry":"","end":"","clock_shift":null}]}"#;

fn read(text: impl AsRef<[u8]>) -> Result<TableText, Refusal> {
    Table::from_json(text.as_ref())
}

#[track_caller]
fn refused(number: u64, index: u64, text: impl AsRef<[u8]>) {
    let refusal = read(text).unwrap_err();
    assert_eq!((refusal.number, refusal.index), (number, index));
    assert!(refusal.reason().is_some());
}

/// S with a part of it, which is there once, put for another.
#[track_caller]
fn with(old: &str, new: &str) -> String {
    assert_eq!(S.matches(old).count(), 1, "{old}");
    S.replace(old, new)
}

/// A text that is S with another member before its own.
fn beside(member: &str) -> String {
    with(r#"{"version""#, &format!(r#"{{{member},"version""#))
}

#[test]
fn the_example() {
    let TableText { table, names } = read(S).unwrap();
    assert_eq!(names, ["C0539.MP4"]);
    assert_eq!(table.frames(), 2);
    let source = Source { frames: 5, fps: (25, 1), size: 9, ..Source::default() };
    let segment = Segment {
        src_first_frame: 1, frame_count: 2, src_start_us: 40_000, duration_us: 80_000,
        src_capture_start_us: 40_000, capture_duration_us: 80_000, ..Segment::default()
    };
    assert_eq!(table, Table::new(&[source], &[segment], false).unwrap());
    assert_eq!(table.map().origin(1).unwrap(), Origin { source: 0, frame: 2, shift: None });
}

#[test]
fn too_long() {
    let blanks = |count: usize| [S.as_bytes(), &vec![b' '; count - S.len()][..]].concat();
    assert_eq!(read(blanks(1_048_576)), read(S));
    refused(60, 0, blanks(1_048_577));
    refused(61, 0, vec![b' '; 1_048_576]);
    refused(60, 0, vec![b' '; 1_048_577]);
}

#[test]
fn no_json() {
    for text in ["", "{", "nul", "[1,]", "{\"a\"}", "[01]", "[1.]", "[.5]", "[+1]", "[1e]", "\"\t\"", r#""\x""#] {
        refused(61, 0, text);
    }
    for length in 0..S.len() {
        refused(61, 0, &S[..length]);
    }
    refused(61, 0, format!("{S}x"));
    refused(61, 0, format!("\u{feff}{S}"));
    refused(61, 0, beside("\"other\":01"));
    refused(61, 0, b"\"\xc0\xaf\"");
    refused(61, 0, b"\"\xed\xa0\x80\"");
}

/// Half a surrogate pair is no character, and both halves in order are one.
#[test]
fn surrogates() {
    for half in [r"\ud800", r"\udc00", r"\ud800\ud800", r"\udc00\ud800", r"\ud800x", r"\ud83dx\ude00"] {
        refused(61, 0, with("C0539.MP4", half));
        refused(61, 0, beside(&format!(r#""other":"{half}""#)));
    }
    assert_eq!(read(with("C0539.MP4", r"\ud83d\ude00")).unwrap().names, ["\u{1f600}"]);
}

/// 32 lists and objects may stand one in another, and a number in the last.
#[test]
fn depth() {
    let lists = |count: usize| format!("{}1{}", "[".repeat(count), "]".repeat(count));
    assert_eq!(read(beside(&format!(r#""other":{}"#, lists(31)))), read(S));
    refused(61, 0, beside(&format!(r#""other":{}"#, lists(32))));
    refused(63, 0, lists(32));
    refused(61, 0, lists(33));
    let objects = |count: usize| format!("{}1{}", r#"{"a":"#.repeat(count), "}".repeat(count));
    refused(63, 0, objects(32));
    refused(61, 0, objects(33));
}

#[test]
fn repeated_names() {
    refused(62, 0, with(r#""version":1"#, r#""version":1,"version":1"#));
    refused(62, 0, with(r#""version":1"#, r#""version":1,"\u0076ersion":1"#));
    refused(62, 0, beside(r#""other":[{"a":{"b":1,"\u0062":2}}]"#));
    refused(62, 0, r#"[{"/":1,"\/":1}]"#);
    refused(62, 0, r#"{"😀":1,"\ud83d\ude00":1}"#);
    assert_eq!(read(beside(r#""other":[{"a":1},{"a":{"a":2}}]"#)), read(S));
    let many = |last: usize| (0..1000).chain([last]).map(|k| format!(r#""n{k}":0"#)).collect::<Vec<_>>().join(",");
    refused(62, 0, beside(&many(500)));
    assert_eq!(read(beside(&many(1000))), read(S));
}

#[test]
fn other_versions() {
    for version in ["1.0", "2", "0", "1e0", "-1", "\"1\"", "null", "[1]", "18446744073709551617"] {
        refused(63, 0, with(r#""version":1"#, &format!(r#""version":{version}"#)));
    }
    refused(63, 0, with(r#""version":1"#, r#""other":1"#));
    for value in ["[]", "1", "null", "\"\"", "{}"] {
        refused(63, 0, value);
    }
}

/// Each member, missing and of another type.
#[test]
fn bad_members() {
    let whole = ["1.0", "-1", "1e1", "-0", "18446744073709551616", "\"1\"", "null", "true", "[]", "{}"];
    let counts = [r#""size":9"#, r#""frames":5"#, r#""source":0"#, r#""src_first_frame":1"#, r#""frame_count":2"#, r#""out_first_frame":0"#];
    let times = [
        r#""src_start_us":40000"#, r#""out_start_us":0"#, r#""duration_us":80000"#, r#""src_capture_start_us":40000"#,
        r#""out_capture_start_us":0"#, r#""capture_duration_us":80000"#,
    ];
    let other = [
        (r#""name":"C0539.MP4""#, &["null", "1", "[]"][..]),
        (r#""fps":[25,1]"#, &["null", "{}", "[25]", "[25,1,1]", "[25,1.0]", "[]", "25"]),
        (r#""creation_time":null"#, &["1", "{}", "false"]),
        (r#""clock":null"#, &["1", "[]", "\"\"", "{}"]),
        (r#""requested":null"#, &["1", "[]", "\"\""]),
        (r#""start":"""#, &["null", "1"]),
        (r#""entry":"""#, &["null", "{}"]),
        (r#""end":"""#, &["null", "[]"]),
        (r#""clock_shift":null"#, &["1.0", "\"1\"", "9223372036854775808", "-0", "{}"]),
    ];
    let counts = counts.map(|member| (member, &whole[..]));
    let times = times.map(|member| (member, &["1.0", "9223372036854775808", "-9223372036854775809", "-0", "null"][..]));
    for (member, values) in counts.into_iter().chain(times).chain(other) {
        let name = member.split(':').next().unwrap();
        refused(64, 0, with(member, r#""another":0"#));
        for value in values {
            refused(64, 0, with(member, &format!("{name}:{value}")));
        }
    }
    refused(64, 0, r#"{"version":1}"#);
    refused(64, 0, r#"{"version":1,"sources":{},"segments":[]}"#);
    refused(64, 0, r#"{"version":1,"sources":[],"segments":null}"#);
    refused(64, 0, r#"{"version":1,"sources":[[]],"segments":[]}"#);
    refused(64, 0, r#"{"version":1,"sources":[],"segments":[1]}"#);
}

#[test]
fn clocks_and_logs() {
    let clocked = |clock: &str, log: &str| {
        let text = with(r#""clock":null"#, &format!(r#""clock":{clock}"#)).replace(r#""clock_shift":null"#, r#""clock_shift":-3"#);
        text.replacen(r#"{"version""#, &format!(r#"{{{log}"version""#), 1)
    };
    let good = r#"{"name":"imu","rate":[1000,1],"modulus":null}"#;
    let table = read(clocked(good, "")).unwrap().table;
    assert_eq!(table.map().origin(0).unwrap().shift, Some(-3));
    refused(17, 0, clocked(r#"{"name":"imu","rate":[1000,1],"modulus":65536}"#, ""));
    refused(6, 0, clocked(r#"{"name":"imu","rate":[1000,0],"modulus":null}"#, ""));
    for bad in [r#"{"rate":[1000,1],"modulus":null}"#, r#"{"name":"imu","rate":1000,"modulus":null}"#, r#"{"name":"imu","rate":[1000,1]}"#] {
        refused(64, 0, clocked(bad, ""));
    }
    let log = r#""telemetry_log":{"name":null,"kind":"gcsv","size":1,"crc32":4294967295},"#;
    assert_ne!(read(clocked(good, log)).unwrap().table, table);
    refused(7, 0, with(r#"{"version""#, &format!(r#"{{{log}"version""#)));
    for bad in ["null", "[]", "{}", r#"{"name":null,"kind":"gcsv","size":1,"crc32":4294967296}"#, r#"{"kind":"gcsv","size":1,"crc32":1}"#] {
        refused(64, 0, clocked(good, &format!(r#""telemetry_log":{bad},"#)));
    }
}

/// Of an IMU's origin that is no whole number nothing is kept.
#[test]
fn imu_origins() {
    let origin = |value: &str| read(with(r#""clock":null"#, &format!(r#""clock":null,"zcam_imu_origin_us":{value}"#))).unwrap().table;
    let source = |origin| Source { frames: 5, fps: (25, 1), size: 9, zcam_imu_origin_us: origin, ..Source::default() };
    let segment = Segment {
        src_first_frame: 1, frame_count: 2, src_start_us: 40_000, duration_us: 80_000,
        src_capture_start_us: 40_000, capture_duration_us: 80_000, ..Segment::default()
    };
    let table = |known| Table::new(&[source(known)], &[segment], false).unwrap();
    assert_eq!(origin("18446744073709551615"), table(Some(u64::MAX)));
    for absent in ["null", "1.0", "-1", "18446744073709551616", "{}", "\"1\""] {
        assert_eq!(origin(absent), table(None));
    }
}

/// What the table's own check refuses has its index; a member that is bad is refused before, wherever it stands.
#[test]
fn bad_tables() {
    let source = r#"{"name":"C0539.MP4","size":9,"frames":5,"fps":[25,1],"creation_time":null,"clock":null}"#;
    refused(3, 0, with(source, ""));
    refused(64, 0, with(source, "").replace(r#""entry":"","#, ""));
    refused(4, 0, with(r#""frames":5"#, r#""frames":0"#));
    refused(4, 1, with(source, &format!("{source},{}", source.replace("[25,1]", "[25,0]"))));
    refused(5, 0, with(r#""creation_time":null"#, r#""creation_time":"""#));
    refused(5, 0, with(r#""creation_time":null"#, &format!(r#""creation_time":"{}""#, "2024-11-17T13:12:46Z".repeat(1000))));
    refused(9, 0, with(r#""source":0"#, r#""source":1"#));
    refused(12, 0, with(r#""frame_count":2"#, r#""frame_count":5"#));
    refused(13, 0, with(r#""out_start_us":0"#, r#""out_start_us":-1"#));
    refused(2, 0, with(source, &[source; 257].join(",")));
    assert_eq!(read(with(source, &[source; 256].join(","))).unwrap().names.len(), 256);
    let segment = &S[S.find(r#"{"source""#).unwrap()..S.len() - 2];
    refused(2, 0, with(segment, &vec![segment; 513].join(",")));
    refused(15, 1, with(segment, &vec![segment; 512].join(",")));
    refused(8, 0, with(segment, ""));
}

/// Numbers that look random, always the same ones.
struct Numbers(u64);

impl Numbers {
    fn next(&mut self) -> u64 {
        self.0 = self.0.wrapping_add(0x9e37_79b9_7f4a_7c15);
        let mixed = (self.0 ^ (self.0 >> 30)).wrapping_mul(0xbf58_476d_1ce4_e5b9);
        let mixed = (mixed ^ (mixed >> 27)).wrapping_mul(0x94d0_49bb_1331_11eb);
        mixed ^ (mixed >> 31)
    }

    fn below(&mut self, bound: u64) -> u64 {
        self.next() % bound
    }

    fn yes(&mut self) -> bool {
        self.below(2) == 1
    }

    /// Up to all 64 bits.
    fn any(&mut self) -> u64 {
        let bits = self.below(64);
        self.next() >> bits
    }

    fn date(&mut self) -> String {
        let [year, month, day, hour, minute] = [9999, 12, 28, 23, 59].map(|most| self.below(most) + 1);
        format!("{year:04}-{month:02}-{day:02}T{hour:02}:{minute:02}:{:02}Z", self.below(60))
    }

    /// A name of characters that JSON escapes, of those that it doesn't, and of several bytes.
    fn name(&mut self) -> String {
        let some = ['C', '0', '.', ' ', '"', '\\', '/', '\0', '\n', '\t', '\x1f', '\x7f', 'é', '\u{2028}', '\u{ffff}', '😀', '\u{10ffff}'];
        (0..self.below(12)).map(|_| some[self.below(some.len() as u64) as usize]).collect()
    }
}

/// A table and its sources' names: some of each that is absent, numbers of all lengths.
fn any_table(n: &mut Numbers) -> (Table, Vec<String>) {
    let log = n.below(8) == 0;
    let most = if n.below(50) == 0 { (256, 512) } else { (4, 6) };
    let sources: Vec<Source> = (0..=n.below(most.0))
        .map(|_| Source {
            frames: n.any().max(1000),
            fps: (n.any().max(1), n.any().max(1)),
            creation_time: n.yes().then(|| n.date()),
            clock: (log || n.yes()).then(|| Clock { rate: (n.any().max(1), n.any().max(1)), modulus: n.yes().then(|| n.any().max(1)) }),
            size: n.any(),
            zcam_imu_origin_us: n.yes().then(|| n.any()),
        })
        .collect();
    let (mut frames, mut out, mut capture) = (0, 0, 0);
    let segments: Vec<Segment> = (0..=n.below(most.1))
        .map(|_| {
            let source = n.below(sources.len() as u64);
            let Source { clock, .. } = sources[source as usize];
            let frame_count = 1 + n.below(500);
            let clock_shift = clock.map(|c| c.modulus.map_or(n.next() as i64, |modulus| n.below(modulus.min(1 << 63)) as i64));
            let segment = Segment {
                source, src_first_frame: n.below(500), frame_count, out_first_frame: frames, src_start_us: (n.any() >> 2) as i64,
                out_start_us: out, duration_us: n.below(1 << 40) as i64, src_capture_start_us: (n.any() >> 2) as i64,
                out_capture_start_us: capture, capture_duration_us: n.below(1 << 40) as i64, clock_shift,
            };
            frames += frame_count;
            out += segment.duration_us;
            capture += segment.capture_duration_us;
            segment
        })
        .collect();
    let names = sources.iter().map(|_| n.name()).collect();
    (Table::new(&sources, &segments, log).unwrap(), names)
}

#[test]
fn what_is_written_reads_back() {
    let mut n = Numbers(1);
    for _ in 0..3000 {
        let (table, names) = any_table(&mut n);
        let json = table.to_json(&names);
        assert_eq!(read(&json).unwrap_or_else(|refusal| panic!("{refusal}: {json}")), TableText { table, names });
    }
}

/// Of a text that is cut off, or has a byte put for another, the answer is a refusal or a table: each that is read is written, and reads
/// back as it is.
#[test]
fn damaged_texts() {
    let mut n = Numbers(2);
    let mut whole = 0;
    for _ in 0..300 {
        let (table, names) = any_table(&mut n);
        let text = table.to_json(&names).into_bytes();
        refused(61, 0, &text[..n.below(text.len() as u64 - 2) as usize]);
        for _ in 0..20 {
            let mut damaged = text.clone();
            damaged[n.below(text.len() as u64) as usize] = [b'"', b'1', b'0', b'-', b'.', b',', b'{', b'}', b'[', b' ', b'e', 0x80][n.below(12) as usize];
            match read(&damaged) {
                Ok(found) => {
                    whole += 1;
                    assert_eq!(read(found.table.to_json(&found.names)).unwrap(), found);
                }
                Err(refusal) => assert!(matches!(refusal.number, 3..=17 | 61..=64), "{refusal}"),
            }
        }
    }
    assert!(whole > 100, "{whole}");
}

/// What no table keeps is written as it is told, and as unknown where it isn't.
#[test]
fn details() {
    let clock = Some(Clock { rate: (1000, 1), modulus: None });
    let source = Source { frames: 100, fps: (25, 1), clock, ..Source::default() };
    let segment = Segment { frame_count: 10, clock_shift: Some(0), ..Segment::default() };
    let second = Segment { frame_count: 10, out_first_frame: 10, clock_shift: Some(0), ..Segment::default() };
    let table = Table::new(&[source], &[segment, second], true).unwrap();
    let details = Details {
        tool: "a \"tool\"",
        clock: "imu",
        boundaries: &[Boundaries { start: "before", entry: "idr", end: "reorder_safe" }],
        log: TelemetryLog { name: Some("C0539.gcsv"), kind: "gcsv", size: 7, crc32: 9 },
    };
    let told = table.to_json_with(&["C0539.MP4"], &details);
    for part in [
        r#""tool":"a \"tool\"""#, r#""clock":{"name":"imu","rate":[1000,1],"modulus":null}"#, r#""start":"before","entry":"idr","end":"reorder_safe""#,
        r#""start":"unknown","entry":"unknown","end":"unknown""#, r#""telemetry_log":{"name":"C0539.gcsv","kind":"gcsv","size":7,"crc32":9}"#,
    ] {
        assert_eq!(told.matches(part).count(), 1, "{part} in {told}");
    }
    let plain = table.to_json(&["C0539.MP4"]);
    assert!(plain.contains(r#""telemetry_log":{"name":null,"kind":"unknown","size":0,"crc32":0}"#), "{plain}");
    assert_eq!(read(told).unwrap(), read(plain).unwrap());
}

#[test]
#[should_panic(expected = "a name for each source")]
fn a_name_for_each_source() {
    let _ = read(S).unwrap().table.to_json::<&str>(&[]);
}
