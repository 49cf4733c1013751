//! The calls of include/segment_table.h, as the Rust wrapper declares them, one of each for a case.

use std::ptr::{ null, null_mut };
use segment_table::ffi::*;
use crate::case::{ Call, Case, LENT_VALUE, Outcome, Table, lent_bytes, lent_longs, lent_words };

/// The pointer to a slice, null where it is empty
fn ptr<T>(slice: &[T]) -> *const T { if slice.is_empty() { null() } else { slice.as_ptr() } }
fn mut_ptr<T>(slice: &mut [T]) -> *mut T { if slice.is_empty() { null_mut() } else { slice.as_mut_ptr() } }

/// Calls a function with a table's slices, then the arguments
macro_rules! with_table {
    ($name:ident, $table:expr, $($arg:expr),*) => {{
        let t: &Table = &$table.table;
        unsafe {
            $name(
                ptr(&t.sources), t.sources.len(), ptr(&t.segments), t.segments.len(), ptr(&t.times), t.times.len(),
                t.log, ptr(&t.text), t.text.len(), $($arg),*
            )
        }
    }};
}

/// Calls a function with a map's slices, then the arguments
macro_rules! with_map {
    ($name:ident, $map:expr, $($arg:expr),*) => {
        unsafe { $name(ptr(&$map.words), $map.words.len(), ptr(&$map.shifts), $map.shifts.len(), $($arg),*) }
    };
}

/// The segments of a table as records; none where they can't be lent so
fn records(table: &Table) -> Option<Vec<TrimSegment>> {
    if !table.has_records() { return None; }
    Some(table.segments.chunks(5).zip(table.times.chunks(7)).map(|(w, t)| TrimSegment {
        source: w[0],
        src_first_frame: w[1],
        frame_count: w[2],
        out_first_frame: w[3],
        src_start_us: t[0],
        out_start_us: t[1],
        duration_us: t[2],
        src_capture_start_us: t[3],
        out_capture_start_us: t[4],
        capture_duration_us: t[5],
        shift_present: w[4] == 1,
        clock_shift: t[6],
    }).collect())
}

/// Room for so many origins
fn origins(len: usize) -> Vec<Origin> {
    let of = |(w, shift): (&[u64], i64)| Origin { source: w[0], frame: w[1], flag: w[2], shift };
    lent_words(3 * len).chunks(3).zip(lent_longs(len)).map(of).collect()
}

/// A call of the library with all that is lent to it
pub type Ready<'a> = Box<dyn FnMut() -> u64 + 'a>;

/// The words and slices that are lent to a call
pub struct Lent {
    kind: u32,
    u: [u64; 3],
    i: [i64; 2],
    index: u64,
    words: Vec<u64>,
    longs: [Vec<i64>; 3],
    counts: Vec<u64>,
    records: Vec<TrimSegment>,
    origins: Vec<Origin>,
    dates: Vec<u8>,
    work: Vec<u64>,
    read: TableRead,
}

impl Lent {
    /// What is lent for a case; none for a case that can't be put to the library
    pub fn of(case: &Case) -> Option<Self> {
        let (value, none) = (LENT_VALUE, [vec![], vec![], vec![]]);
        let read = TableRead { frames: value, sources: value, segments: value, dates: value, log: value };
        let mut lent = Self {
            kind: value as u32, u: [value; 3], i: [value as i64; 2], index: value, words: vec![], longs: none, counts: vec![],
            records: vec![], origins: vec![], dates: vec![], work: vec![], read,
        };
        let rooms: &[usize] = match case {
            Case::RowsOfTable { room, .. } | Case::Cut { room, .. } | Case::Join { room, .. } | Case::Merge { room, .. } => {
                lent.words = lent_words(room[0]);
                &room[1..]
            }
            Case::Cuts { room, .. } => {
                lent.words = lent_words(room[0]);
                lent.counts = lent_words(room[2]);
                &room[1..2]
            }
            Case::SegmentsOfFrames { room, .. } => { lent.words = lent_words(*room); &[] }
            Case::Origins { room, .. } => { lent.origins = origins(*room); &[] }
            Case::McrawTimes { room, .. } | Case::CheckMcraw { room, .. } => room,
            Case::VideoFrameTimesOfMoov { room, .. } => room,
            Case::ReadTable { room: [sources, words, stamps, dates, work], .. } => {
                lent.words = lent_words(*sources);
                lent.counts = lent_words(*words);
                lent.dates = lent_bytes(*dates);
                lent.work = lent_words(*work);
                std::slice::from_ref(stamps)
            }
            Case::SourceNames { room: [names, work], .. } => {
                lent.words = lent_words(*names);
                lent.work = lent_words(*work);
                &[]
            }
            Case::JsonString { room, .. } => { lent.dates = lent_bytes(*room); &[] }
            _ => &[],
        };
        for (slice, len) in lent.longs.iter_mut().zip(rooms) { *slice = lent_longs(*len); }
        if let Case::SegmentOfFrameRecords { table, .. } = case { lent.records = records(&table.table)?; }
        Some(lent)
    }

    /// Calls the library; the number
    pub fn call(&mut self, case: &Case) -> u64 { self.ready(case)() }

    /// The call, made as often as it is run; each answers the number
    pub fn ready<'a>(&'a mut self, case: &'a Case) -> Ready<'a> {
        match case {
            Case::Check { .. } | Case::SegmentOfFrame { .. } | Case::SegmentOfFrameRecords { .. } | Case::SegmentOfTimeUs { .. }
                | Case::Continues { .. } | Case::RowsOfTable { .. } | Case::SegmentsOfFrames { .. } => self.of_table(case),
            Case::ValidateNoVideo { .. } | Case::ValidateConstant { .. } | Case::ValidateTimes { .. } | Case::CheckMcraw { .. } => self.of_judge(case),
            Case::Cut { .. } | Case::Join { .. } | Case::Merge { .. } | Case::Origin { .. } | Case::Cuts { .. } | Case::Origins { .. } => self.of_maps(case),
            Case::ReadTable { .. } | Case::SourceNames { .. } | Case::JsonString { .. } => self.of_texts(case),
            _ => self.of_the_rest(case),
        }
    }

    fn of_table<'a>(&'a mut self, case: &'a Case) -> Ready<'a> {
        let (value, index) = (&mut self.u[0], &mut self.index);
        let (words, shifts) = (&mut self.words, &mut self.longs[0]);
        match case {
            Case::Check { table } => Box::new(move || with_table!(st_check, table, value, index)),
            Case::SegmentOfFrame { table, frame } => Box::new(move || with_table!(st_segment_of_frame, table, *frame, value, index)),
            Case::SegmentOfTimeUs { table, time } => Box::new(move || with_table!(st_segment_of_time_us, table, *time, value, index)),
            Case::Continues { table, segment } => Box::new(move || with_table!(st_continues, table, *segment, value, index)),
            Case::RowsOfTable { table, .. } => Box::new(move || with_table!(st_rows_of_table, table, mut_ptr(words), words.len(), mut_ptr(shifts), shifts.len(), value, index)),
            Case::SegmentsOfFrames { table, frames, .. } => Box::new(move || with_table!(st_segments_of_frames, table, ptr(frames), frames.len(), mut_ptr(words), words.len(), value, index)),
            Case::SegmentOfFrameRecords { table, frame } => {
                let (t, records) = (&table.table, &self.records);
                Box::new(move || unsafe {
                    st_segment_of_frame_records(ptr(&t.sources), t.sources.len(), ptr(&t.text), t.text.len(), ptr(records), records.len(), t.log, *frame, value, index)
                })
            }
            _ => unreachable!(),
        }
    }

    fn of_judge<'a>(&'a mut self, case: &'a Case) -> Ready<'a> {
        let (value, index) = (&mut self.u[0], &mut self.index);
        let [a, b, _] = &mut self.longs;
        match case {
            Case::ValidateNoVideo { table } => Box::new(move || with_table!(st_validate_no_video, table, index)),
            Case::ValidateConstant { table, frames, num, den } => Box::new(move || with_table!(st_validate_constant, table, *frames, *num, *den, value, index)),
            Case::ValidateTimes { table, scale, starts, end, nominal } => {
                Box::new(move || with_table!(st_validate_times, table, *scale, ptr(starts), starts.len(), *end, *nominal, value, index))
            }
            Case::CheckMcraw { table, timestamps, .. } => {
                Box::new(move || with_table!(st_check_mcraw, table, ptr(timestamps), timestamps.len(), mut_ptr(a), a.len(), mut_ptr(b), b.len(), value, index))
            }
            _ => unreachable!(),
        }
    }

    fn of_maps<'a>(&'a mut self, case: &'a Case) -> Ready<'a> {
        let ([value, source_frame, flag], [shift, _], index) = (&mut self.u, &mut self.i, &mut self.index);
        let (words, shifts, counts, origins) = (&mut self.words, &mut self.longs[0], &mut self.counts, &mut self.origins);
        let (room, more) = (words.len(), shifts.len());
        let (words, shifts) = (mut_ptr(words), mut_ptr(shifts));
        match case {
            Case::Cut { map, a, b, .. } => Box::new(move || with_map!(st_cut, map, *a, *b, words, room, shifts, more, value, index)),
            Case::Cuts { map, ranges, .. } => Box::new(move || {
                with_map!(st_cuts, map, ptr(ranges), ranges.len(), words, room, shifts, more, mut_ptr(counts), counts.len(), value, index)
            }),
            Case::Join { first, second, .. } => Box::new(move || {
                with_map!(st_join, first, ptr(&second.words), second.words.len(), ptr(&second.shifts), second.shifts.len(), words, room, shifts, more, value, index)
            }),
            Case::Merge { map, .. } => Box::new(move || with_map!(st_merge, map, words, room, shifts, more, value, index)),
            Case::Origin { map, frame } => Box::new(move || with_map!(st_origin, map, *frame, value, source_frame, flag, shift, index)),
            Case::Origins { map, frames, .. } => Box::new(move || with_map!(st_origins, map, ptr(frames), frames.len(), mut_ptr(origins), origins.len(), value, index)),
            _ => unreachable!(),
        }
    }

    fn of_texts<'a>(&'a mut self, case: &'a Case) -> Ready<'a> {
        let (value, read, index) = (&mut self.u[0], &mut self.read, &mut self.index);
        let (words, segments, stamps) = (&mut self.words, &mut self.counts, &mut self.longs[0]);
        let (bytes, work) = (&mut self.dates, &mut self.work);
        match case {
            Case::ReadTable { text, .. } => Box::new(move || unsafe {
                st_read_table(
                    ptr(text), text.len(), mut_ptr(words), words.len(), mut_ptr(segments), segments.len(), mut_ptr(stamps), stamps.len(),
                    mut_ptr(bytes), bytes.len(), mut_ptr(work), work.len(), read, index,
                )
            }),
            Case::SourceNames { text, .. } => Box::new(move || unsafe {
                st_source_names(ptr(text), text.len(), mut_ptr(words), words.len(), mut_ptr(work), work.len(), value, index)
            }),
            Case::JsonString { text, at, .. } => Box::new(move || unsafe { st_json_string(ptr(text), text.len(), *at, mut_ptr(bytes), bytes.len(), value, index) }),
            _ => unreachable!(),
        }
    }

    fn of_the_rest<'a>(&'a mut self, case: &'a Case) -> Ready<'a> {
        let ([a, b, next], [c, d], [starts, one, two]) = (&mut self.u, &mut self.i, &mut self.longs);
        let (found, index) = (&mut self.kind, &mut self.index);
        let rooms = [starts.len(), one.len(), two.len()];
        let (starts, one, two) = (mut_ptr(starts), mut_ptr(one), mut_ptr(two));
        match case {
            Case::IsUtcSecond { bytes } => Box::new(move || { *a = unsafe { st_is_utc_second(ptr(bytes), bytes.len()) } as u64; 0 }),
            Case::TicksToUs { ticks, scale } => Box::new(move || unsafe { st_ticks_to_us(*ticks, *scale, c, index) }),
            Case::BoxSize { data, remaining } => Box::new(move || unsafe { st_box_size(ptr(data), data.len(), *remaining, a, b, index) }),
            Case::Children { payload, at } => Box::new(move || unsafe { st_children(ptr(payload), payload.len(), *at, found, a, b, next, index) }),
            Case::Child { payload, kind } => Box::new(move || unsafe { st_child(ptr(payload), payload.len(), *kind, a, b, index) }),
            Case::FindBox { bytes, from, to, kind, text_types } => {
                Box::new(move || unsafe { st_find_box(ptr(bytes), bytes.len(), *from, *to, *kind, *text_types, a, b, index) })
            }
            Case::TableText { file } => Box::new(move || unsafe { st_table_text(ptr(file), file.len(), a, b, index) }),
            Case::VideoFrameTimesOfMoov { moov, standard, .. } => Box::new(move || unsafe {
                st_video_frame_times_of_moov(ptr(moov), moov.len(), *standard, starts, rooms[0], one, rooms[1], two, rooms[2], a, b, c, d, index)
            }),
            Case::McrawTimes { timestamps, .. } => Box::new(move || unsafe {
                st_mcraw_times(ptr(timestamps), timestamps.len(), starts, rooms[0], one, rooms[1], a, b, c, d, index)
            }),
            _ => unreachable!(),
        }
    }

    /// What the caller sees after a call that answered `number`
    pub fn outcome(self, case: &Case, number: u64) -> Outcome {
        let call = case.call();
        let (u, i) = (self.u.map(|u| u as i128), self.i.map(|i| i as i128));
        let values = match call {
            Call::TicksToUs => [i[0], 0, 0, 0, 0],
            Call::Children => [self.kind as i128, u[0], u[1], u[2], 0],
            Call::VideoFrameTimesOfMoov | Call::McrawTimes => [u[0], u[1], i[0], i[1], 0],
            Call::Origin => [u[0], u[1], u[2], i[0], 0],
            Call::ReadTable => [self.read.frames as i128, self.read.sources as i128, self.read.segments as i128, self.read.dates as i128, self.read.log as i128],
            _ => [u[0], u[1], u[2], 0, 0],
        };
        let mut after = Outcome { number, index: if call.refuses() { self.index } else { 0 }, words: self.words, longs: self.longs, counts: self.counts, dates: self.dates, work: self.work, ..Outcome::default() };
        after.values[..call.values()].copy_from_slice(&values[..call.values()]);
        if call == Call::Origins {
            after.words = self.origins.iter().flat_map(|o| [o.source, o.frame, o.flag]).collect();
            after.longs[0] = self.origins.iter().map(|o| o.shift).collect();
        }
        after
    }
}
