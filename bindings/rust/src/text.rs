//! Tables as texts: the JSON that a file holds.
use crate::table::{MOST_SEGMENTS, MOST_SOURCES, SEGMENT_STAMPS, SEGMENT_WORDS, SOURCE_WORDS};
use crate::{answer, ffi, Refusal, Table};
use std::fmt::{self, Display, Write};

/// The bytes that a text may have.
const MOST_TEXT: usize = 1_048_576;

/// The least that a source and a segment take in a text, in bytes: fewer than their members' names have.
const LEAST_SOURCE: usize = 64;
const LEAST_SEGMENT: usize = 192;

/// The words of working room that a text of any length is read with.
const LEAST_WORK: usize = 3840;

/// A table as its text has it: with its sources' names.
#[derive(Clone, Debug, PartialEq, Eq, Hash)]
pub struct TableText {
    /// The table.
    pub table: Table,
    /// The name of each source, a camera's file: `C0539.MP4`, say.
    pub names: Vec<String>,
}

/// What a table's text says besides, on which no answer rests: [`Table::to_json_with`] writes it. What isn't known is
/// said to be "unknown" by the default.
#[derive(Clone, Copy, Debug, PartialEq, Eq)]
pub struct Details<'a> {
    /// The program that made the table.
    pub tool: &'a str,
    /// The name of the sources' clocks.
    pub clock: &'a str,
    /// The rules that made each segment's boundaries; of a segment past them it is the default.
    pub boundaries: &'a [Boundaries<'a>],
    /// The telemetry log of a table that names one.
    pub log: TelemetryLog<'a>,
}

/// The rules that made a segment's boundaries.
#[derive(Clone, Copy, Debug, PartialEq, Eq)]
pub struct Boundaries<'a> {
    /// Where it starts.
    pub start: &'a str,
    /// How a decoder enters it.
    pub entry: &'a str,
    /// Where it ends.
    pub end: &'a str,
}

/// The telemetry log that was written with a video. It is known by its size and CRC-32: those of the default are of an
/// empty one, which a reader takes for no log that has readings.
#[derive(Clone, Copy, Debug, PartialEq, Eq)]
pub struct TelemetryLog<'a> {
    /// Its file name, as it was written.
    pub name: Option<&'a str>,
    /// What it is read as: `gcsv`, `runcam` or `jsonl`.
    pub kind: &'a str,
    /// Its bytes.
    pub size: u64,
    /// The CRC-32 of its bytes, as gzip has it.
    pub crc32: u32,
}

const UNKNOWN: &str = "unknown";

impl Default for Boundaries<'_> {
    fn default() -> Self {
        Boundaries { start: UNKNOWN, entry: UNKNOWN, end: UNKNOWN }
    }
}

impl Default for TelemetryLog<'_> {
    fn default() -> Self {
        TelemetryLog { name: None, kind: UNKNOWN, size: 0, crc32: 0 }
    }
}

impl Default for Details<'_> {
    fn default() -> Self {
        Details { tool: UNKNOWN, clock: UNKNOWN, boundaries: &[], log: TelemetryLog::default() }
    }
}

/// Working room for a text, which is left as it is lent: zero.
fn working_room(text: &[u8]) -> Vec<u64> {
    vec![0; LEAST_WORK.max(text.len().div_ceil(4))]
}

/// The most records that a text has room for, each of so many bytes or more; a table has no more than the limit.
fn most(text: &[u8], least: usize, limit: usize) -> usize {
    (text.len() / least).min(limit)
}

/// Reads the table of a text that isn't too long.
fn read(text: &[u8], work: &mut [u64]) -> Result<Table, Refusal> {
    let (sources, segments) = (most(text, LEAST_SOURCE, MOST_SOURCES), most(text, LEAST_SEGMENT, MOST_SEGMENTS));
    let mut words: Vec<u64> = vec![0; SOURCE_WORDS * sources];
    let mut rows: Vec<u64> = vec![0; SEGMENT_WORDS * segments];
    let mut stamps: Vec<i64> = vec![0; SEGMENT_STAMPS * segments];
    let mut dates: Vec<u8> = vec![0; text.len()];
    let (mut found, mut index) = (ffi::TableRead::default(), 0);
    let number = unsafe {
        ffi::st_read_table(
            text.as_ptr(), text.len(), words.as_mut_ptr(), words.len(), rows.as_mut_ptr(), rows.len(), stamps.as_mut_ptr(), stamps.len(),
            dates.as_mut_ptr(), dates.len(), work.as_mut_ptr(), work.len(), &mut found, &mut index,
        )
    };
    answer(number, index, ())?;
    words.truncate(SOURCE_WORDS * found.sources as usize);
    rows.truncate(SEGMENT_WORDS * found.segments as usize);
    stamps.truncate(SEGMENT_STAMPS * found.segments as usize);
    dates.truncate(found.dates as usize);
    words.shrink_to_fit();
    rows.shrink_to_fit();
    stamps.shrink_to_fit();
    dates.shrink_to_fit();
    Ok(Table { sources: words, segments: rows, stamps, log: found.log == 1, text: dates, frames: found.frames })
}

/// The names of so many sources of a text whose table was read.
fn source_names(text: &[u8], sources: usize, work: &mut [u64]) -> Vec<String> {
    let mut places = vec![0; 2 * sources];
    let (mut count, mut index) = (0, 0);
    let number = unsafe {
        ffi::st_source_names(
            text.as_ptr(), text.len(), places.as_mut_ptr(), places.len(), work.as_mut_ptr(), work.len(), &mut count, &mut index,
        )
    };
    debug_assert_eq!((number, count), (0, sources as u64));
    places.chunks_exact(2).map(|place| string(text, place[0] - 1, place[1] as usize)).collect()
}

/// The string whose quotation mark stands at an offset of a text, with so many bytes up to its closing one.
fn string(text: &[u8], at: u64, room: usize) -> String {
    let mut bytes: Vec<u8> = vec![0; room];
    let (mut length, mut index) = (0, 0);
    let number = unsafe { ffi::st_json_string(text.as_ptr(), text.len(), at, bytes.as_mut_ptr(), bytes.len(), &mut length, &mut index) };
    debug_assert_eq!(number, 0);
    bytes.truncate(length as usize);
    bytes.shrink_to_fit();
    String::from_utf8(bytes).expect("a string of JSON is UTF-8")
}

/// A text as a string of JSON.
struct Quoted<'a>(&'a str);

impl Display for Quoted<'_> {
    fn fmt(&self, f: &mut fmt::Formatter<'_>) -> fmt::Result {
        f.write_char('"')?;
        for c in self.0.chars() {
            match c {
                '"' | '\\' => write!(f, "\\{c}")?,
                '\0'..='\x1f' => write!(f, "\\u{:04x}", c as u32)?,
                _ => f.write_char(c)?,
            }
        }
        f.write_char('"')
    }
}

/// A value of JSON, or null.
struct OrNull<T>(Option<T>);

impl<T: Display> Display for OrNull<T> {
    fn fmt(&self, f: &mut fmt::Formatter<'_>) -> fmt::Result {
        match &self.0 {
            Some(value) => value.fmt(f),
            None => f.write_str("null"),
        }
    }
}

/// A list of JSON, with each value on a line of its own.
fn write_list<T>(json: &mut String, items: impl Iterator<Item = T>, mut write: impl FnMut(&mut String, T) -> fmt::Result) -> fmt::Result {
    json.push('[');
    for (k, item) in items.enumerate() {
        json.push_str(if k == 0 { "\n" } else { ",\n" });
        write(json, item)?;
    }
    json.push(']');
    Ok(())
}

impl Table {
    /// Reads a table and its sources' names from a table's text: that of a file is what [`table_text`](crate::table_text)
    /// finds. Refuses 60 to 64 for the text, and 2 to 17 as [`Table::new`] of what it holds, with the source's or the
    /// segment's index.
    ///
    /// ```
    /// use segment_table::{Table, TableText};
    ///
    /// let text = br#"{"version":1,
    ///     "sources":[{"name":"C0539.MP4","size":9,"frames":5,"fps":[25,1],"creation_time":null,"clock":null}],
    ///     "segments":[{"source":0,"src_first_frame":1,"frame_count":2,"out_first_frame":0,"src_start_us":40000,
    ///         "out_start_us":0,"duration_us":80000,"src_capture_start_us":40000,"out_capture_start_us":0,
    ///         "capture_duration_us":80000,"requested":null,"start":"","entry":"","end":"","clock_shift":null}]}"#;
    /// let TableText { table, names } = Table::from_json(text)?;
    /// assert_eq!(table.frames(), 2);
    /// let origin = table.map().origin(1)?;
    /// assert_eq!((names[origin.source as usize].as_str(), origin.frame), ("C0539.MP4", 2));
    ///
    /// assert_eq!(Table::from_json(b"[]").unwrap_err().number, 63);
    /// assert_eq!(Table::from_json(b"{").unwrap_err().words(),
    ///     "the table's text isn't JSON, or over 32 lists and objects stand one in another");
    /// # Ok::<(), segment_table::Refusal>(())
    /// ```
    pub fn from_json(text: &[u8]) -> Result<TableText, Refusal> {
        if text.len() > MOST_TEXT {
            return Err(Refusal { number: crate::Reason::TextTooLong as u64, index: 0 });
        }
        let mut work = working_room(text);
        let table = read(text, &mut work)?;
        let names = source_names(text, table.sources.len() / SOURCE_WORDS, &mut work);
        Ok(TableText { table, names })
    }

    /// The table's text, with a name for each source. What no table keeps, as no answer rests on it, is null or
    /// "unknown"; [`Table::to_json_with`] writes it as it is told. Of names that make it longer than 1,048,576 bytes
    /// [`Table::from_json`] refuses it with 60.
    ///
    /// # Panics
    ///
    /// Where there are fewer or more names than sources.
    ///
    /// ```
    /// # use segment_table::{Segment, Source, Table};
    /// # let source = Source { frames: 100, fps: (25, 1), ..Source::default() };
    /// # let segment = Segment { frame_count: 30, duration_us: 1_200_000, ..Segment::default() };
    /// let table = Table::new(&[source], &[segment], false)?;
    /// let text = table.to_json(&["C0539.MP4"]);
    /// let read = Table::from_json(text.as_bytes())?;
    /// assert_eq!(read.table, table);
    /// assert_eq!(read.names, ["C0539.MP4"]);
    /// # Ok::<(), segment_table::Refusal>(())
    /// ```
    #[must_use]
    pub fn to_json<N: AsRef<str>>(&self, names: &[N]) -> String {
        self.to_json_with(names, &Details::default())
    }

    /// The table's text, with a name for each source, and with what no table keeps.
    ///
    /// Boundaries past the last segment are ignored. Of a text over 1,048,576 bytes [`Table::from_json`] says 60.
    ///
    /// # Panics
    ///
    /// Where there are fewer or more names than sources.
    ///
    /// ```
    /// # use segment_table::{Segment, Source, Table};
    /// use segment_table::{Boundaries, Details};
    /// # let source = Source { frames: 100, fps: (25, 1), ..Source::default() };
    /// # let segment = Segment { frame_count: 30, duration_us: 1_200_000, ..Segment::default() };
    /// # let table = Table::new(&[source], &[segment], false)?;
    ///
    /// let boundaries = [Boundaries { start: "before", entry: "idr", end: "reorder_safe" }];
    /// let text = table.to_json_with(&["C0539.MP4"], &Details { tool: "cutter 2", boundaries: &boundaries, ..Details::default() });
    /// assert!(text.contains(r#""start":"before","entry":"idr","end":"reorder_safe""#));
    /// assert_eq!(Table::from_json(text.as_bytes())?.table, table);
    /// # Ok::<(), segment_table::Refusal>(())
    /// ```
    #[must_use]
    pub fn to_json_with<N: AsRef<str>>(&self, names: &[N], details: &Details<'_>) -> String {
        assert_eq!(names.len(), self.sources.len() / SOURCE_WORDS, "a name for each source");
        let mut json = String::new();
        self.write_json(&mut json, names, details).expect("a string takes whatever is written");
        json
    }

    fn write_json<N: AsRef<str>>(&self, json: &mut String, names: &[N], details: &Details<'_>) -> fmt::Result {
        write!(json, "{{\"version\":1,\"tool\":{},\n\"sources\":", Quoted(details.tool))?;
        let sources = self.sources.chunks_exact(SOURCE_WORDS).zip(names);
        write_list(json, sources, |json, (words, name)| self.write_source(json, words, name.as_ref(), details))?;
        json.push_str(",\n\"segments\":");
        let told = details.boundaries.iter().copied().chain(std::iter::repeat(Boundaries::default()));
        let segments = self.segments.chunks_exact(SEGMENT_WORDS).zip(self.stamps.chunks_exact(SEGMENT_STAMPS)).zip(told);
        write_list(json, segments, |json, ((words, stamps), told)| write_segment(json, words, stamps, told))?;
        if self.log {
            let TelemetryLog { name, kind, size, crc32 } = details.log;
            let (name, kind) = (OrNull(name.map(Quoted)), Quoted(kind));
            write!(json, ",\n\"telemetry_log\":{{\"name\":{name},\"kind\":{kind},\"size\":{size},\"crc32\":{crc32}}}")?;
        }
        json.push_str("}\n");
        Ok(())
    }

    fn write_source(&self, json: &mut String, words: &[u64], name: &str, details: &Details<'_>) -> fmt::Result {
        let created = (words[3] == 1).then(|| &self.text[words[4] as usize..][..words[5] as usize]);
        let created = created.map(|bytes| std::str::from_utf8(bytes).expect("a creation time is ASCII"));
        write!(json, "{{\"name\":{},\"size\":{},\"frames\":{},\"fps\":[{},{}],", Quoted(name), words[10], words[0], words[1], words[2])?;
        write!(json, "\"creation_time\":{},\"clock\":", OrNull(created.map(Quoted)))?;
        match words[6] {
            0 => json.push_str("null"),
            kind => {
                let modulus = OrNull((kind == 2).then_some(words[9]));
                write!(json, "{{\"name\":{},\"rate\":[{},{}],\"modulus\":{modulus}}}", Quoted(details.clock), words[7], words[8])?;
            }
        }
        if words[11] == 1 {
            write!(json, ",\"zcam_imu_origin_us\":{}", words[12])?;
        }
        json.push('}');
        Ok(())
    }
}

fn write_segment(json: &mut String, words: &[u64], stamps: &[i64], told: Boundaries<'_>) -> fmt::Result {
    let counts = ["source", "src_first_frame", "frame_count", "out_first_frame"].into_iter().zip(words);
    for (k, (name, count)) in counts.enumerate() {
        write!(json, "{}\"{name}\":{count}", if k == 0 { "{" } else { "," })?;
    }
    let times = ["src_start_us", "out_start_us", "duration_us", "src_capture_start_us", "out_capture_start_us", "capture_duration_us"];
    for (name, time) in times.into_iter().zip(stamps) {
        write!(json, ",\"{name}\":{time}")?;
    }
    let [start, entry, end] = [told.start, told.entry, told.end].map(Quoted);
    let shift = OrNull((words[4] == 1).then_some(stamps[6]));
    write!(json, ",\"requested\":null,\"start\":{start},\"entry\":{entry},\"end\":{end},\"clock_shift\":{shift}}}")
}
