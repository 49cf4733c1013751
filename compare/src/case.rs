//! A case is a call with its arguments; an answer is what the rules (docs/RULES.md) say of it; an outcome is the answer
//! together with every lent word and slice afterwards.

use std::{ cell::OnceCell, hash::{ DefaultHasher, Hash, Hasher }, rc::Rc };
use oracle::segment_table::SegmentTable;

/// The calls, in the order of the table that is printed. A call's random cases go by its place here, so a new one comes last
#[derive(Clone, Copy, Debug, PartialEq, Eq, PartialOrd, Ord)]
pub enum Call {
    IsUtcSecond, TicksToUs, Check, SegmentOfFrame, SegmentOfFrameRecords, SegmentOfTimeUs, Continues, RowsOfTable,
    ValidateNoVideo, ValidateConstant, ValidateTimes, BoxSize, Child, FindBox, TableText, VideoFrameTimesOfMoov,
    McrawTimes, CheckMcraw, Cut, Join, Merge, Origin, Children, SegmentsOfFrames, Cuts, Origins, ReadTable,
    SourceNames, JsonString,
}

impl Call {
    pub const ALL: [Call; 29] = [
        Call::IsUtcSecond, Call::TicksToUs, Call::Check, Call::SegmentOfFrame, Call::SegmentOfFrameRecords,
        Call::SegmentOfTimeUs, Call::Continues, Call::RowsOfTable, Call::ValidateNoVideo, Call::ValidateConstant,
        Call::ValidateTimes, Call::BoxSize, Call::Child, Call::FindBox, Call::TableText, Call::VideoFrameTimesOfMoov,
        Call::McrawTimes, Call::CheckMcraw, Call::Cut, Call::Join, Call::Merge, Call::Origin, Call::Children,
        Call::SegmentsOfFrames, Call::Cuts, Call::Origins, Call::ReadTable, Call::SourceNames, Call::JsonString,
    ];

    /// The name of the call, without the library's prefix
    pub fn name(self) -> &'static str {
        match self {
            Call::IsUtcSecond => "is_utc_second",
            Call::TicksToUs => "ticks_to_us",
            Call::Check => "check",
            Call::SegmentOfFrame => "segment_of_frame",
            Call::SegmentOfFrameRecords => "segment_of_frame_records",
            Call::SegmentsOfFrames => "segments_of_frames",
            Call::SegmentOfTimeUs => "segment_of_time_us",
            Call::Continues => "continues",
            Call::RowsOfTable => "rows_of_table",
            Call::ValidateNoVideo => "validate_no_video",
            Call::ValidateConstant => "validate_constant",
            Call::ValidateTimes => "validate_times",
            Call::BoxSize => "box_size",
            Call::Children => "children",
            Call::Child => "child",
            Call::FindBox => "find_box",
            Call::TableText => "table_text",
            Call::VideoFrameTimesOfMoov => "video_frame_times_of_moov",
            Call::McrawTimes => "mcraw_times",
            Call::CheckMcraw => "check_mcraw",
            Call::Cut => "cut",
            Call::Cuts => "cuts",
            Call::Join => "join",
            Call::Merge => "merge",
            Call::Origin => "origin",
            Call::Origins => "origins",
            Call::ReadTable => "read_table",
            Call::SourceNames => "source_names",
            Call::JsonString => "json_string",
        }
    }

    pub fn named(name: &str) -> Option<Call> { Self::ALL.into_iter().find(|c| c.name() == name) }

    /// How many value words the call answers with
    pub fn values(self) -> usize {
        match self {
            Call::ValidateNoVideo => 0,
            Call::BoxSize | Call::Child | Call::FindBox | Call::TableText => 2,
            Call::Children | Call::VideoFrameTimesOfMoov | Call::McrawTimes | Call::Origin => 4,
            Call::ReadTable => 5,
            _ => 1,
        }
    }

    /// Whether the call can refuse, and so answers a number and an index; `is_utc_second` answers a bool alone
    pub fn refuses(self) -> bool { self != Call::IsUtcSecond }

    /// What a value word holds when it is lent: a type of a box is a word of 32 bits
    pub fn lent(self, k: usize) -> i128 {
        if self == Call::Children && k == 0 { LENT_VALUE as u32 as i128 } else { LENT_VALUE as i128 }
    }
}

/// How many words a source has
pub const SOURCE_WORDS: usize = 13;

/// A table as it is lent: sources of thirteen words, segments of five words and seven signed ones
#[derive(Clone, Debug, Default, Hash, PartialEq)]
pub struct Table {
    pub sources: Vec<u64>,
    pub segments: Vec<u64>,
    pub times: Vec<i64>,
    pub log: bool,
    pub text: Vec<u8>,
}

impl Table {
    /// Whether the segments can be lent as records too: whole ones, each flag 0 or 1
    pub fn has_records(&self) -> bool {
        let whole = self.segments.len() % 5 == 0 && self.times.len() % 7 == 0 && self.segments.len() / 5 == self.times.len() / 7;
        whole && self.segments.chunks(5).all(|w| w[4] <= 1)
    }
}

/// What the unchanged Rust says of a table: the parsed one, a number and an index, or that it can't be asked
pub type Parsed = Option<Result<SegmentTable, (u64, u64)>>;

/// A table, and what the Rust says of it once it was asked
#[derive(Default)]
pub struct Lent {
    pub table: Table,
    pub parsed: OnceCell<Parsed>,
}

impl Hash for Lent {
    fn hash<H: Hasher>(&self, state: &mut H) { self.table.hash(state) }
}

impl Lent {
    pub fn new(table: Table) -> Rc<Self> { Rc::new(Self { table, parsed: OnceCell::new() }) }
}

/// The rows of a frame map as they are lent: five words and one signed one each
#[derive(Clone, Debug, Default, Hash, PartialEq)]
pub struct Map {
    pub words: Vec<u64>,
    pub shifts: Vec<i64>,
}

/// One row: the six numbers of RULES 10.1
#[derive(Clone, Copy, Debug, PartialEq)]
pub struct Row {
    pub source: u64,
    pub source_first: u64,
    pub count: u64,
    pub out_first: u64,
    pub flag: u64,
    pub shift: i64,
}

impl Map {
    /// The rows, as far as there are words and shifts
    pub fn rows(&self) -> Vec<Row> {
        let row = |(w, shift): (&[u64], &i64)| Row { source: w[0], source_first: w[1], count: w[2], out_first: w[3], flag: w[4], shift: *shift };
        self.words.chunks_exact(5).zip(&self.shifts).map(row).collect()
    }

    pub fn lent(&self) -> (&[u64], &[i64]) { (&self.words, &self.shifts) }
}

/// A call with its arguments. A room is the length of a slice that is lent to be written
#[derive(Clone, Hash)]
pub enum Case {
    IsUtcSecond { bytes: Vec<u8> },
    TicksToUs { ticks: i64, scale: u64 },
    Check { table: Rc<Lent> },
    SegmentOfFrame { table: Rc<Lent>, frame: u64 },
    SegmentOfFrameRecords { table: Rc<Lent>, frame: u64 },
    SegmentsOfFrames { table: Rc<Lent>, frames: Vec<u64>, room: usize },
    SegmentOfTimeUs { table: Rc<Lent>, time: i64 },
    Continues { table: Rc<Lent>, segment: u64 },
    RowsOfTable { table: Rc<Lent>, room: [usize; 2] },
    ValidateNoVideo { table: Rc<Lent> },
    ValidateConstant { table: Rc<Lent>, frames: u64, num: u64, den: u64 },
    ValidateTimes { table: Rc<Lent>, scale: u64, starts: Vec<i64>, end: i64, nominal: i64 },
    BoxSize { data: Vec<u8>, remaining: u64 },
    Children { payload: Vec<u8>, at: u64 },
    Child { payload: Vec<u8>, kind: u32 },
    FindBox { bytes: Vec<u8>, from: u64, to: u64, kind: u32, text_types: bool },
    TableText { file: Vec<u8> },
    VideoFrameTimesOfMoov { moov: Vec<u8>, standard: bool, room: [usize; 3] },
    McrawTimes { timestamps: Vec<i64>, room: [usize; 2] },
    CheckMcraw { table: Rc<Lent>, timestamps: Vec<i64>, room: [usize; 2] },
    Cut { map: Map, a: u64, b: u64, room: [usize; 2] },
    Cuts { map: Map, ranges: Vec<u64>, room: [usize; 3] },
    Join { first: Map, second: Map, room: [usize; 2] },
    Merge { map: Map, room: [usize; 2] },
    Origin { map: Map, frame: u64 },
    Origins { map: Map, frames: Vec<u64>, room: usize },
    /// Room for sources, words, stamps, creation times and work
    ReadTable { text: Vec<u8>, room: [usize; 5] },
    /// Room for the names' places, and work
    SourceNames { text: Vec<u8>, room: [usize; 2] },
    JsonString { text: Vec<u8>, at: u64, room: usize },
}

/// One argument of a case, to be changed, written or read
pub enum Part<'a> {
    Word(&'a mut u64),
    Kind(&'a mut u32),
    Long(&'a mut i64),
    Room(&'a mut usize),
    Flag(&'a mut bool),
    Bytes(&'a mut Vec<u8>),
    Words(&'a mut Vec<u64>),
    Longs(&'a mut Vec<i64>),
    Table(&'a mut Rc<Lent>),
    Map(&'a mut Map),
}

impl Case {
    /// A number that changes where an argument does
    pub fn fingerprint(&self) -> u64 {
        let mut hasher = DefaultHasher::new();
        self.hash(&mut hasher);
        hasher.finish()
    }

    pub fn call(&self) -> Call {
        match self {
            Case::IsUtcSecond { .. } => Call::IsUtcSecond,
            Case::TicksToUs { .. } => Call::TicksToUs,
            Case::Check { .. } => Call::Check,
            Case::SegmentOfFrame { .. } => Call::SegmentOfFrame,
            Case::SegmentOfFrameRecords { .. } => Call::SegmentOfFrameRecords,
            Case::SegmentsOfFrames { .. } => Call::SegmentsOfFrames,
            Case::SegmentOfTimeUs { .. } => Call::SegmentOfTimeUs,
            Case::Continues { .. } => Call::Continues,
            Case::RowsOfTable { .. } => Call::RowsOfTable,
            Case::ValidateNoVideo { .. } => Call::ValidateNoVideo,
            Case::ValidateConstant { .. } => Call::ValidateConstant,
            Case::ValidateTimes { .. } => Call::ValidateTimes,
            Case::BoxSize { .. } => Call::BoxSize,
            Case::Children { .. } => Call::Children,
            Case::Child { .. } => Call::Child,
            Case::FindBox { .. } => Call::FindBox,
            Case::TableText { .. } => Call::TableText,
            Case::VideoFrameTimesOfMoov { .. } => Call::VideoFrameTimesOfMoov,
            Case::McrawTimes { .. } => Call::McrawTimes,
            Case::CheckMcraw { .. } => Call::CheckMcraw,
            Case::Cut { .. } => Call::Cut,
            Case::Cuts { .. } => Call::Cuts,
            Case::Join { .. } => Call::Join,
            Case::Merge { .. } => Call::Merge,
            Case::Origin { .. } => Call::Origin,
            Case::Origins { .. } => Call::Origins,
            Case::ReadTable { .. } => Call::ReadTable,
            Case::SourceNames { .. } => Call::SourceNames,
            Case::JsonString { .. } => Call::JsonString,
        }
    }

    /// A case of the call with empty arguments
    pub fn blank(call: Call) -> Case {
        let (table, map) = (Lent::new(Table::default()), Map::default());
        match call {
            Call::IsUtcSecond => Case::IsUtcSecond { bytes: vec![] },
            Call::TicksToUs => Case::TicksToUs { ticks: 0, scale: 0 },
            Call::Check => Case::Check { table },
            Call::SegmentOfFrame => Case::SegmentOfFrame { table, frame: 0 },
            Call::SegmentOfFrameRecords => Case::SegmentOfFrameRecords { table, frame: 0 },
            Call::SegmentsOfFrames => Case::SegmentsOfFrames { table, frames: vec![], room: 0 },
            Call::SegmentOfTimeUs => Case::SegmentOfTimeUs { table, time: 0 },
            Call::Continues => Case::Continues { table, segment: 0 },
            Call::RowsOfTable => Case::RowsOfTable { table, room: [0; 2] },
            Call::ValidateNoVideo => Case::ValidateNoVideo { table },
            Call::ValidateConstant => Case::ValidateConstant { table, frames: 0, num: 0, den: 0 },
            Call::ValidateTimes => Case::ValidateTimes { table, scale: 0, starts: vec![], end: 0, nominal: 0 },
            Call::BoxSize => Case::BoxSize { data: vec![], remaining: 0 },
            Call::Children => Case::Children { payload: vec![], at: 0 },
            Call::Child => Case::Child { payload: vec![], kind: 0 },
            Call::FindBox => Case::FindBox { bytes: vec![], from: 0, to: 0, kind: 0, text_types: false },
            Call::TableText => Case::TableText { file: vec![] },
            Call::VideoFrameTimesOfMoov => Case::VideoFrameTimesOfMoov { moov: vec![], standard: false, room: [0; 3] },
            Call::McrawTimes => Case::McrawTimes { timestamps: vec![], room: [0; 2] },
            Call::CheckMcraw => Case::CheckMcraw { table, timestamps: vec![], room: [0; 2] },
            Call::Cut => Case::Cut { map, a: 0, b: 0, room: [0; 2] },
            Call::Cuts => Case::Cuts { map, ranges: vec![], room: [0; 3] },
            Call::Join => Case::Join { first: map.clone(), second: map, room: [0; 2] },
            Call::Merge => Case::Merge { map, room: [0; 2] },
            Call::Origin => Case::Origin { map, frame: 0 },
            Call::Origins => Case::Origins { map, frames: vec![], room: 0 },
            Call::ReadTable => Case::ReadTable { text: vec![], room: [0; 5] },
            Call::SourceNames => Case::SourceNames { text: vec![], room: [0; 2] },
            Call::JsonString => Case::JsonString { text: vec![], at: 0, room: 0 },
        }
    }

    /// The arguments, in the order of the call's parameters; rooms last
    pub fn parts(&mut self) -> Vec<Part<'_>> {
        use Part::*;
        let mut parts = Vec::new();
        let room: &mut [usize] = match self {
            Case::IsUtcSecond { bytes } => { parts.push(Bytes(bytes)); &mut [] }
            Case::TicksToUs { ticks, scale } => { parts.extend([Long(ticks), Word(scale)]); &mut [] }
            Case::Check { table } | Case::ValidateNoVideo { table } => { parts.push(Table(table)); &mut [] }
            Case::SegmentOfFrame { table, frame } | Case::SegmentOfFrameRecords { table, frame } => { parts.extend([Table(table), Word(frame)]); &mut [] }
            Case::SegmentsOfFrames { table, frames, room } => { parts.extend([Table(table), Words(frames)]); std::slice::from_mut(room) }
            Case::SegmentOfTimeUs { table, time } => { parts.extend([Table(table), Long(time)]); &mut [] }
            Case::Continues { table, segment } => { parts.extend([Table(table), Word(segment)]); &mut [] }
            Case::RowsOfTable { table, room } => { parts.push(Table(table)); room }
            Case::ValidateConstant { table, frames, num, den } => { parts.extend([Table(table), Word(frames), Word(num), Word(den)]); &mut [] }
            Case::ValidateTimes { table, scale, starts, end, nominal } => {
                parts.extend([Table(table), Word(scale), Longs(starts), Long(end), Long(nominal)]);
                &mut []
            }
            Case::BoxSize { data, remaining } => { parts.extend([Bytes(data), Word(remaining)]); &mut [] }
            Case::Children { payload, at } => { parts.extend([Bytes(payload), Word(at)]); &mut [] }
            Case::Child { payload, kind } => { parts.extend([Bytes(payload), Kind(kind)]); &mut [] }
            Case::FindBox { bytes, from, to, kind, text_types } => {
                parts.extend([Bytes(bytes), Word(from), Word(to), Kind(kind), Flag(text_types)]);
                &mut []
            }
            Case::TableText { file } => { parts.push(Bytes(file)); &mut [] }
            Case::VideoFrameTimesOfMoov { moov, standard, room } => { parts.extend([Bytes(moov), Flag(standard)]); room }
            Case::McrawTimes { timestamps, room } => { parts.push(Longs(timestamps)); room }
            Case::CheckMcraw { table, timestamps, room } => { parts.extend([Table(table), Longs(timestamps)]); room }
            Case::Cut { map, a, b, room } => { parts.extend([Map(map), Word(a), Word(b)]); room }
            Case::Cuts { map, ranges, room } => { parts.extend([Map(map), Words(ranges)]); room }
            Case::Join { first, second, room } => { parts.extend([Map(first), Map(second)]); room }
            Case::Merge { map, room } => { parts.push(Map(map)); room }
            Case::Origin { map, frame } => { parts.extend([Map(map), Word(frame)]); &mut [] }
            Case::Origins { map, frames, room } => { parts.extend([Map(map), Words(frames)]); std::slice::from_mut(room) }
            Case::ReadTable { text, room } => { parts.push(Bytes(text)); room }
            Case::SourceNames { text, room } => { parts.push(Bytes(text)); room }
            Case::JsonString { text, at, room } => { parts.extend([Bytes(text), Word(at)]); std::slice::from_mut(room) }
        };
        parts.extend(room.iter_mut().map(Room));
        parts
    }
}

/// What is answered: the number (0 where accepted) with its index, or the values and what is written into lent slices
#[derive(Clone, Debug, Default, PartialEq)]
pub struct Answer {
    pub number: u64,
    pub index: u64,
    pub values: [i128; MOST_VALUES],
    /// The words of the rows written, the segments, of each origin its source, the frame there and the flag, of a table its
    /// sources' words and then its segments', or of each name where it starts and how long it is
    pub words: Vec<u64>,
    /// The starts, the shifts of the rows written or of the origins, or the signed words of a table's segments
    pub longs: Vec<i64>,
    /// How many rows each cut has
    pub counts: Vec<u64>,
    /// A table's creation times, one after the other, or the bytes of a string
    pub dates: Vec<u8>,
}

/// The most value words that a call answers with
pub const MOST_VALUES: usize = 5;

impl Answer {
    pub fn refused((number, index): (u64, u64)) -> Self { Self { number, index, ..Self::default() } }
    pub fn of(values: &[i128]) -> Self {
        let mut answer = Self::default();
        answer.values[..values.len()].copy_from_slice(values);
        answer
    }
}

/// The answer as the caller sees it: number, index, value words, and every lent slice over its whole length
#[derive(Clone, Debug, Default, PartialEq)]
pub struct Outcome {
    pub number: u64,
    pub index: u64,
    pub values: [i128; MOST_VALUES],
    pub words: Vec<u64>,
    pub longs: [Vec<i64>; 3],
    pub counts: Vec<u64>,
    pub dates: Vec<u8>,
    pub work: Vec<u64>,
}

/// What a value word holds when it is lent
pub const LENT_VALUE: u64 = 0x5a5a_0123_4567_89a5;

/// What a slice of words holds when it is lent: nowhere zero, and no two neighbours alike
pub fn lent_words(len: usize) -> Vec<u64> { (0..len as u64).map(|k| 0xb000_0000_0000_0001 + k * 3).collect() }

/// What a slice of signed words holds when it is lent
pub fn lent_longs(len: usize) -> Vec<i64> { (0..len as i64).map(|k| -0x3000_0000_0000_0001 - k * 5).collect() }

/// What a slice of bytes holds when it is lent
pub fn lent_bytes(len: usize) -> Vec<u8> { (0..len).map(|k| 0x81 | (k * 6) as u8).collect() }

/// The outcome of an answer by RULES 2.3: written is the answer alone, and only where accepted; values and
/// outputs stay as lent otherwise; working slices are all zero
pub fn outcome(case: &Case, answer: &Answer) -> Outcome {
    let call = case.call();
    let mut after = Outcome { number: answer.number, index: answer.index, ..Outcome::default() };
    let accepted = answer.number == 0;
    for k in 0..call.values() {
        after.values[k] = if accepted { answer.values[k] } else { call.lent(k) };
    }
    match case {
        Case::RowsOfTable { room, .. } | Case::Cut { room, .. } | Case::Join { room, .. } | Case::Merge { room, .. } => rows(&mut after, answer, room),
        Case::Cuts { room, .. } => {
            rows(&mut after, answer, room);
            after.counts = written(&answer.counts, lent_words(room[2]));
        }
        Case::Origins { room, .. } => rows(&mut after, answer, &[3 * room, *room]),
        Case::SegmentsOfFrames { room, .. } => after.words = written(&answer.words, lent_words(*room)),
        Case::VideoFrameTimesOfMoov { room, .. } => starts_and_work(&mut after, answer, room),
        Case::McrawTimes { room, .. } => starts_and_work(&mut after, answer, room),
        Case::CheckMcraw { room, .. } => {
            after.longs[0] = vec![0; room[0]];
            after.longs[1] = vec![0; room[1]];
        }
        Case::ReadTable { room, .. } => {
            let (sources, segments) = answer.words.split_at(SOURCE_WORDS * answer.values[1] as usize);
            after.words = written(sources, lent_words(room[0]));
            after.counts = written(segments, lent_words(room[1]));
            after.longs[0] = written(&answer.longs, lent_longs(room[2]));
            after.dates = written(&answer.dates, lent_bytes(room[3]));
            after.work = vec![0; room[4]];
        }
        Case::SourceNames { room: [names, work], .. } => {
            after.words = written(&answer.words, lent_words(*names));
            after.work = vec![0; *work];
        }
        Case::JsonString { room, .. } => after.dates = written(&answer.dates, lent_bytes(*room)),
        _ => {}
    }
    after
}

/// What is written, over what was lent
fn written<T: Copy>(answer: &[T], mut lent: Vec<T>) -> Vec<T> {
    lent[..answer.len()].copy_from_slice(answer);
    lent
}

/// The words and shifts of rows or origins, over what was lent
fn rows(after: &mut Outcome, answer: &Answer, room: &[usize]) {
    after.words = written(&answer.words, lent_words(room[0]));
    after.longs[0] = written(&answer.longs, lent_longs(room[1]));
}

/// The first slice holds the starts over what was lent, the others are working slices
fn starts_and_work(after: &mut Outcome, answer: &Answer, room: &[usize]) {
    after.longs[0] = written(&answer.longs, lent_longs(room[0]));
    for (slice, len) in after.longs[1..].iter_mut().zip(&room[1..]) {
        *slice = vec![0; *len];
    }
}
