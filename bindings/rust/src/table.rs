//! Segment tables.
use crate::{answer, ffi, FrameMap, Refusal, TrimSegment};

/// A camera clock: ticks a second as a fraction, and where it wraps.
#[derive(Clone, Copy, Debug, PartialEq, Eq, Hash)]
pub struct Clock {
    /// Ticks a second as a fraction.
    pub rate: (u64, u64),
    /// How many ticks it counts before it starts again; a clock without one never does.
    pub modulus: Option<u64>,
}

/// A recording that frames come from.
#[derive(Clone, Debug, Default, PartialEq, Eq, Hash)]
pub struct Source {
    /// How many frames it has.
    pub frames: u64,
    /// Frames a second as a fraction.
    pub fps: (u64, u64),
    /// When it was made, `YYYY-MM-DDTHH:MM:SSZ`.
    pub creation_time: Option<String>,
    /// The clock that its segments' shifts count in.
    pub clock: Option<Clock>,
    /// How many bytes its file has. No answer rests on it.
    pub size: u64,
    /// The origin of its IMU's clock in microseconds, where a Z CAM gives it. No answer rests on it.
    pub zcam_imu_origin_us: Option<u64>,
}

/// A run of frames of one source, with its times in microseconds.
#[derive(Clone, Copy, Debug, Default, PartialEq, Eq, Hash)]
pub struct Segment {
    /// The source's number.
    pub source: u64,
    /// Its first frame in the source.
    pub src_first_frame: u64,
    /// How many frames it has.
    pub frame_count: u64,
    /// Its first frame in the output.
    pub out_first_frame: u64,
    /// Where it starts in the source.
    pub src_start_us: i64,
    /// Where it starts in the output.
    pub out_start_us: i64,
    /// How long it is.
    pub duration_us: i64,
    /// Where its capture starts in the source.
    pub src_capture_start_us: i64,
    /// Where its capture starts in the output.
    pub out_capture_start_us: i64,
    /// How long its capture is.
    pub capture_duration_us: i64,
    /// The shift, in ticks of the source's clock; present where the source has one.
    pub clock_shift: Option<i64>,
}

/// An accepted segment table. Of what is absent nothing is kept: two tables that differ only in words and bytes that are
/// ignored are equal.
///
/// ```
/// use segment_table::{Segment, Source, Table};
///
/// let source = |frames| Source { frames, fps: (25, 1), ..Source::default() };
/// let segments = [
///     Segment { source: 0, src_first_frame: 10, frame_count: 30, duration_us: 1_200_000, ..Segment::default() },
///     Segment {
///         source: 1, src_first_frame: 5, frame_count: 20, out_first_frame: 30,
///         out_start_us: 1_200_000, duration_us: 800_000, ..Segment::default()
///     },
/// ];
/// let table = Table::new(&[source(100), source(50)], &segments, false)?;
/// assert_eq!(table.frames(), 50);
/// assert_eq!((table.segment_of_frame(29), table.segment_of_frame(30)), (0, 1));
/// assert_eq!(table.segment_of_time_us(1_200_000), 1);
/// assert!(!table.continues(1));
/// assert_eq!(table.map().origin(30)?.frame, 5);
///
/// let refusal = Table::new(&[source(100)], &segments, false).unwrap_err();
/// assert_eq!((refusal.number, refusal.index), (9, 1));
/// # Ok::<(), segment_table::Refusal>(())
/// ```
#[derive(Clone, Debug, PartialEq, Eq, Hash)]
pub struct Table {
    pub(crate) sources: Vec<u64>,
    pub(crate) segments: Vec<u64>,
    pub(crate) stamps: Vec<i64>,
    pub(crate) log: bool,
    pub(crate) text: Vec<u8>,
    pub(crate) frames: u64,
}

/// The nine arguments of a lent table.
macro_rules! lent {
    ($call:ident, $t:expr $(, $more:expr)*) => {
        crate::ffi::$call(
            $t.sources.as_ptr(), $t.sources.len(), $t.segments.as_ptr(), $t.segments.len(), $t.stamps.as_ptr(), $t.stamps.len(),
            $t.log, $t.text.as_ptr(), $t.text.len() $(, $more)*
        )
    };
}

/// How many words a source has, how many a segment has, and how many times.
pub(crate) const SOURCE_WORDS: usize = 13;
pub(crate) const SEGMENT_WORDS: usize = 5;
pub(crate) const SEGMENT_STAMPS: usize = 7;

/// The sources and the segments that a table may have, and the bytes of a creation time.
pub(crate) const MOST_SOURCES: usize = 256;
pub(crate) const MOST_SEGMENTS: usize = 512;
const TIME_BYTES: usize = 20;

/// The first of them: one more than there may be, which is refused as all of them are.
fn first_of<T>(all: &[T], most: usize) -> &[T] {
    &all[..all.len().min(most + 1)]
}

/// The words of sources, thirteen each, and the bytes of their creation times; of too many or too long ones only what is refused alike.
fn words_of(sources: &[Source]) -> (Vec<u64>, Vec<u8>) {
    let sources = first_of(sources, MOST_SOURCES);
    let mut text = Vec::new();
    let mut words = Vec::with_capacity(SOURCE_WORDS * sources.len());
    for s in sources {
        let time = first_of(s.creation_time.as_deref().unwrap_or("").as_bytes(), TIME_BYTES);
        let clock = s.clock.unwrap_or(Clock { rate: (0, 0), modulus: None });
        let kind = s.clock.map_or(0, |c| if c.modulus.is_some() { 2 } else { 1 });
        words.extend([s.frames, s.fps.0, s.fps.1, s.creation_time.is_some() as u64, text.len() as u64, time.len() as u64]);
        words.extend([kind, clock.rate.0, clock.rate.1, clock.modulus.unwrap_or(0)]);
        words.extend([s.size, s.zcam_imu_origin_us.is_some() as u64, s.zcam_imu_origin_us.unwrap_or(0)]);
        text.extend(time);
    }
    (words, text)
}

/// The segment that has a frame, of a table whose segments are a list of C's records: the answer of
/// [`Table::segment_of_frame`], without a copy of the segments. Refuses 2 to 17, with the source's or the segment's index.
///
/// ```
/// use segment_table::{segment_of_frame_records, Source, TrimSegment};
///
/// let source = Source { frames: 100, fps: (25, 1), ..Source::default() };
/// let first = TrimSegment { frame_count: 30, duration_us: 1_200_000, ..TrimSegment::default() };
/// let second = TrimSegment { frame_count: 20, out_first_frame: 30, out_start_us: 1_200_000, ..TrimSegment::default() };
/// assert_eq!(segment_of_frame_records(&[source.clone()], &[first, second], false, 30), Ok(1));
/// assert_eq!(segment_of_frame_records(&[source], &[second], false, 30).unwrap_err().number, 15);
/// ```
pub fn segment_of_frame_records(sources: &[Source], records: &[TrimSegment], log: bool, frame: u64) -> Result<usize, Refusal> {
    let (words, text) = words_of(sources);
    let (mut segment, mut index) = (0, 0);
    let number = unsafe {
        ffi::st_segment_of_frame_records(
            words.as_ptr(), words.len(), text.as_ptr(), text.len(), records.as_ptr(), records.len(), log, frame, &mut segment, &mut index,
        )
    };
    answer(number, index, segment as usize)
}

impl Table {
    /// Checks a table; `log` says whether it names a telemetry log. Refuses 2 to 17, with the source's or the segment's index.
    pub fn new(sources: &[Source], segments: &[Segment], log: bool) -> Result<Table, Refusal> {
        let (words, text) = words_of(sources);
        let segments = first_of(segments, MOST_SEGMENTS);
        let rows = segments.iter().flat_map(|s| [s.source, s.src_first_frame, s.frame_count, s.out_first_frame, s.clock_shift.is_some() as u64]);
        let stamps = segments.iter().flat_map(|s| {
            let [source, out, length] = [s.src_capture_start_us, s.out_capture_start_us, s.capture_duration_us];
            [s.src_start_us, s.out_start_us, s.duration_us, source, out, length, s.clock_shift.unwrap_or(0)]
        });
        Table::from_words(words, rows.collect(), stamps.collect(), log, text)
    }

    /// Checks a table as it is lent: thirteen words a source, five words and seven stamps a segment, and the bytes of creation
    /// times. Refuses 1 to 17.
    ///
    /// ```
    /// assert_eq!(segment_table::Table::from_words(vec![1; 12], vec![], vec![], false, vec![]).unwrap_err().number, 1);
    /// ```
    pub fn from_words(sources: Vec<u64>, segments: Vec<u64>, stamps: Vec<i64>, log: bool, text: Vec<u8>) -> Result<Table, Refusal> {
        let mut table = Table { sources, segments, stamps, log, text, frames: 0 };
        let (mut frames, mut index) = (0, 0);
        let number = unsafe { lent!(st_check, table, &mut frames, &mut index) };
        table.frames = frames;
        answer(number, index, ())?;
        table.clean();
        Ok(table)
    }

    /// Sets the words of what is absent to 0, and keeps of the text the creation times alone, one after another: no call
    /// looks at the rest, and equality and hash must not.
    fn clean(&mut self) {
        let mut text = Vec::new();
        for source in self.sources.chunks_exact_mut(SOURCE_WORDS) {
            if source[3] == 0 { source[4..6].fill(0) } // the creation time's offset and length
            else {
                let (at, length) = (source[4] as usize, source[5] as usize);
                source[4] = text.len() as u64;
                text.extend_from_slice(&self.text[at..at + length]);
            }
            match source[6] {
                0 => source[7..10].fill(0), // the clock's rate and modulus
                1 => source[9] = 0,
                _ => {}
            }
            if source[11] == 0 { source[12] = 0 } // the origin
        }
        for (words, stamps) in self.segments.chunks_exact(SEGMENT_WORDS).zip(self.stamps.chunks_exact_mut(SEGMENT_STAMPS)) {
            if words[4] == 0 { stamps[6] = 0 } // the shift
        }
        self.text = text;
    }

    /// How many frames it has.
    #[must_use]
    pub fn frames(&self) -> u64 {
        self.frames
    }

    /// The index of the segment that has a frame; past the last frame, of the last one.
    #[must_use]
    pub fn segment_of_frame(&self, frame: u64) -> usize {
        let (mut segment, mut index) = (0, 0);
        let number = unsafe { lent!(st_segment_of_frame, self, frame, &mut segment, &mut index) };
        debug_assert_eq!(number, 0);
        segment as usize
    }

    /// The index of the segment that has each frame of a list, in any order; past the last frame, of the last one. It is what
    /// [`Table::segment_of_frame`] answers of each, but the library tests the table once for the list, not once a frame.
    ///
    /// ```
    /// # use segment_table::{Segment, Source, Table};
    /// # let source = Source { frames: 100, fps: (25, 1), ..Source::default() };
    /// # let first = Segment { src_first_frame: 10, frame_count: 30, ..Segment::default() };
    /// # let second = Segment { src_first_frame: 5, frame_count: 20, out_first_frame: 30, ..Segment::default() };
    /// # let table = Table::new(&[source], &[first, second], false)?;
    /// // what a preview pane shows of two segments that join at frame 30
    /// let visible = [28, 29, 30, 31];
    /// assert_eq!(table.segments_of_frames(&visible), [0, 0, 1, 1]);
    /// assert_eq!(table.segments_of_frames(&visible), visible.map(|frame| table.segment_of_frame(frame)));
    /// # Ok::<(), segment_table::Refusal>(())
    /// ```
    #[must_use]
    pub fn segments_of_frames(&self, frames: &[u64]) -> Vec<usize> {
        let mut segments: Vec<u64> = vec![0; frames.len()];
        let (mut written, mut index) = (0, 0);
        let number = unsafe {
            lent!(
                st_segments_of_frames, self, frames.as_ptr(), frames.len(), segments.as_mut_ptr(), segments.len(),
                &mut written, &mut index
            )
        };
        debug_assert_eq!((number, written), (0, frames.len() as u64));
        segments.into_iter().map(|segment| segment as usize).collect()
    }

    /// The index of the segment that presents a time: before the first one the first, past the last one the last.
    #[must_use]
    pub fn segment_of_time_us(&self, time: i64) -> usize {
        let (mut segment, mut index) = (0, 0);
        let number = unsafe { lent!(st_segment_of_time_us, self, time, &mut segment, &mut index) };
        debug_assert_eq!(number, 0);
        segment as usize
    }

    /// Whether a segment continues the one before it: same source, source frames that run on, equal shift.
    #[must_use]
    pub fn continues(&self, segment: usize) -> bool {
        let (mut yes, mut index) = (0, 0);
        let number = unsafe { lent!(st_continues, self, segment as u64, &mut yes, &mut index) };
        debug_assert_eq!(number, 0);
        yes == 1
    }

    /// Its map: one row a segment.
    #[must_use]
    pub fn map(&self) -> FrameMap {
        FrameMap::filled(self.segments.len() / SEGMENT_WORDS, |ou, os, rows, index| unsafe {
            lent!(st_rows_of_table, self, ou.as_mut_ptr(), ou.len(), os.as_mut_ptr(), os.len(), rows, index)
        })
        .expect("an accepted table has a map")
    }
}
