//! A lent table: refusals 1 to 17, the lookups, `continues`, and its rows.

use super::{ Refusal, numbers::is_utc_second };
use crate::case::{ self, Answer, Row };

pub const MOST_SOURCES: usize = 256;
pub const MOST_SEGMENTS: usize = 512;

pub struct Source {
    pub frames: u64,
    pub fps: (u64, u64),
    /// The bytes of the creation time, where it is present
    pub creation_time: Option<Vec<u8>>,
    pub clock: Option<Clock>,
    pub size: u64,
    /// The Z CAM origin, where it is known, else its word, which says nothing
    pub origin: Result<u64, u64>,
}

pub struct Clock {
    pub rate: (u64, u64),
    pub modulus: Option<u64>,
}

pub struct Segment {
    pub source: u64,
    pub src_first_frame: u64,
    pub frame_count: u64,
    pub out_first_frame: u64,
    pub src_start: i64,
    pub out_start: i64,
    pub duration: i64,
    pub src_capture_start: i64,
    pub out_capture_start: i64,
    pub capture_duration: i64,
    pub shift: Option<i64>,
}

pub struct Table {
    pub sources: Vec<Source>,
    pub segments: Vec<Segment>,
    pub log: bool,
    /// N, once the table is accepted
    pub frames: u64,
}

/// The ends of the segment before
struct Before {
    frame: u64,
    times: Option<(i64, i64)>,
}

impl Table {
    /// The records of a lent table: refusals 1 and 2
    pub fn lent(table: &case::Table) -> Result<Table, Refusal> {
        let (sources, segments, times) = (&table.sources, &table.segments, &table.times);
        if sources.len() % case::SOURCE_WORDS != 0 || segments.len() % 5 != 0 || times.len() % 7 != 0 || segments.len() / 5 != times.len() / 7 {
            return Err((1, 0));
        }
        let sources: Option<Vec<_>> = sources.chunks(case::SOURCE_WORDS).map(|words| source(words, &table.text)).collect();
        let segments: Option<Vec<_>> = segments.chunks(5).zip(times.chunks(7)).map(|(words, times)| segment(words, times)).collect();
        let (Some(sources), Some(segments)) = (sources, segments) else { return Err((1, 0)) };
        if sources.len() > MOST_SOURCES || segments.len() > MOST_SEGMENTS { return Err((2, 0)); }
        Ok(Table { sources, segments, log: table.log, frames: 0 })
    }

    /// An accepted table, or its refusal
    pub fn checked(table: &case::Table) -> Result<Table, Refusal> {
        let mut table = Table::lent(table)?;
        if table.sources.is_empty() { return Err((3, 0)); }
        for (k, source) in table.sources.iter().enumerate() {
            let number = source.refused(table.log);
            if number != 0 { return Err((number, k as u64)); }
        }
        if table.segments.is_empty() { return Err((8, 0)); }
        let mut before = Before { frame: 0, times: None };
        for (k, segment) in table.segments.iter().enumerate() {
            before = segment.follows(&table.sources, &before).map_err(|number| (number, k as u64))?;
        }
        table.frames = before.frame;
        Ok(table)
    }

    /// The number of segments whose end is <= the frame, at most the last index
    pub fn segment_of_frame(&self, frame: u64) -> u64 {
        let ended = self.segments.iter().filter(|s| s.out_first_frame + s.frame_count <= frame).count();
        ended.min(self.segments.len() - 1) as u64
    }

    /// The same with end times
    pub fn segment_of_time_us(&self, time: i64) -> u64 {
        let ended = self.segments.iter().filter(|s| s.out_end() <= time).count();
        ended.min(self.segments.len() - 1) as u64
    }

    /// A list of frames in and a list of indices out, each index the single lookup's; 32 if the output is shorter than the list
    pub fn segments_of_frames(&self, frames: &[u64], room: usize) -> Result<Answer, Refusal> {
        if room < frames.len() { return Err((32, 0)); }
        let words = frames.iter().map(|frame| self.segment_of_frame(*frame)).collect();
        Ok(Answer { words, ..Answer::of(&[frames.len() as i128]) })
    }

    /// r >= 1, r exists, same source, source frames run on, equal shift (both absent counts as equal)
    pub fn continues(&self, r: u64) -> bool {
        if r < 1 || r >= self.segments.len() as u64 { return false; }
        let (a, b) = (&self.segments[r as usize - 1], &self.segments[r as usize]);
        a.source == b.source && a.src_first_frame + a.frame_count == b.src_first_frame && a.shift == b.shift
    }

    /// One row a segment, an absent shift as 0
    pub fn rows(&self) -> Vec<Row> {
        self.segments.iter().map(|s| Row {
            source: s.source,
            source_first: s.src_first_frame,
            count: s.frame_count,
            out_first: s.out_first_frame,
            flag: s.shift.is_some() as u64,
            shift: s.shift.unwrap_or(0),
        }).collect()
    }
}

/// A source of thirteen words, none where a flag, a kind or a range is outside what it may be
fn source(words: &[u64], text: &[u8]) -> Option<Source> {
    let creation_time = match words[3] {
        0 => None,
        1 => {
            let from = usize::try_from(words[4]).ok()?;
            Some(text.get(from..from.checked_add(usize::try_from(words[5]).ok()?)?)?.to_vec())
        }
        _ => return None,
    };
    let rate = (words[7], words[8]);
    let clock = match words[6] {
        0 => None,
        1 => Some(Clock { rate, modulus: None }),
        2 => Some(Clock { rate, modulus: Some(words[9]) }),
        _ => return None,
    };
    let origin = match words[11] { 0 => Err(words[12]), 1 => Ok(words[12]), _ => return None };
    Some(Source { frames: words[0], fps: (words[1], words[2]), creation_time, clock, size: words[10], origin })
}

/// A segment of five words and seven signed ones, none where its flag is neither 0 nor 1
fn segment(words: &[u64], times: &[i64]) -> Option<Segment> {
    Some(Segment {
        source: words[0],
        src_first_frame: words[1],
        frame_count: words[2],
        out_first_frame: words[3],
        src_start: times[0],
        out_start: times[1],
        duration: times[2],
        src_capture_start: times[3],
        out_capture_start: times[4],
        capture_duration: times[5],
        shift: match words[4] { 0 => None, 1 => Some(times[6]), _ => return None },
    })
}

impl Source {
    /// The first of 4 to 7 that refuses it, or 0
    fn refused(&self, log: bool) -> u64 {
        if self.frames == 0 || self.fps.0 == 0 || self.fps.1 == 0 { return 4; }
        if self.creation_time.as_ref().is_some_and(|time| !is_utc_second(time)) { return 5; }
        if self.clock.as_ref().is_some_and(|c| c.rate.0 == 0 || c.rate.1 == 0 || c.modulus == Some(0)) { return 6; }
        if log && self.clock.is_none() { return 7; }
        0
    }
}

impl Segment {
    pub fn out_end(&self) -> i64 { self.out_start + self.duration }

    /// The ends of this segment after those before it, or the first of 9 to 17 that refuses it
    fn follows(&self, sources: &[Source], before: &Before) -> Result<Before, u64> {
        let source = usize::try_from(self.source).ok().and_then(|k| sources.get(k)).ok_or(9u64)?;
        if self.frame_count == 0 { return Err(10); }
        let end = self.out_first_frame.checked_add(self.frame_count).ok_or(11u64)?;
        let src_end = self.src_first_frame.checked_add(self.frame_count).ok_or(11u64)?;
        if src_end > source.frames { return Err(12); }
        let times = [self.src_start, self.out_start, self.duration, self.src_capture_start, self.out_capture_start, self.capture_duration];
        if times.iter().any(|t| *t < 0) { return Err(13); }
        self.src_start.checked_add(self.duration).ok_or(14u64)?;
        self.src_capture_start.checked_add(self.capture_duration).ok_or(14u64)?;
        if self.out_first_frame != before.frame { return Err(15); }
        if before.times.is_some_and(|ends| ends != (self.out_start, self.out_capture_start)) { return Err(16); }
        let out_end = self.out_start.checked_add(self.duration).ok_or(14u64)?;
        let capture_end = self.out_capture_start.checked_add(self.capture_duration).ok_or(14u64)?;
        if !self.shift_fits(source) { return Err(17); }
        Ok(Before { frame: end, times: Some((out_end, capture_end)) })
    }

    /// A shift exactly where the source has a clock, and inside 0..modulus where that has a modulus
    fn shift_fits(&self, source: &Source) -> bool {
        match (&source.clock, self.shift) {
            (None, None) => true,
            (Some(clock), Some(shift)) => clock.modulus.is_none_or(|m| shift >= 0 && (shift as u64) < m),
            _ => false,
        }
    }
}
