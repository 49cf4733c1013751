//! For every frame of a trimmed and joined recording: which camera original, and which frame of it, lies behind it. A safe
//! wrapper of the proved library, which this package builds from its repository.
//!
//! The first lesson: cut a clip across a join, cut the result again, and find the first frame past the join.
//!
//! ```
//! use segment_table::{FrameMap, Row};
//!
//! let clip = FrameMap::new(&[
//!     Row { source: 0, source_first: 10, count: 30, out_first: 0, shift: None },
//!     Row { source: 1, source_first: 5, count: 20, out_first: 30, shift: None },
//! ])?;
//! let again = clip.cut(25..40)?.cut(3..8)?;
//! let join = again.rows().nth(1).unwrap().out_first;
//! let origin = again.origin(join)?;
//! assert_eq!((origin.source, origin.frame), (1, 5));
//! # Ok::<(), segment_table::Refusal>(())
//! ```
//!
//! In a file a table is a text: [`table_text`] finds it, and [`Table::from_json`] reads the table and its sources' names.
//!
//! A call that refuses gives a [`Refusal`], with its reason, its number, its index and its words. All calls may be made in
//! several threads at once: none keeps anything.
#![warn(missing_docs)]

pub mod ffi;
mod map;
mod recording;
#[macro_use]
mod table;
mod text;
mod video;
mod walk;

pub use ffi::{Reason, TrimSegment};
pub use map::{FrameMap, Origin, Row, Rows};
pub use recording::{mcraw_times, video_frame_times_of_moov, FrameTimes};
pub use table::{segment_of_frame_records, Clock, Segment, Source, Table};
pub use text::{Boundaries, Details, TableText, TelemetryLog};
pub use video::Video;
pub use walk::{box_size, child, children, find_box, table_text, BoxSize, Children};

use std::fmt;

/// Why a call was refused: a number, which `reason()` names, the index that goes with it (0 where none does), and its words.
///
/// ```
/// let refusal = segment_table::ticks_to_us(1, 0).unwrap_err();
/// assert_eq!((refusal.number, refusal.index), (23, 0));
/// assert_eq!(refusal.reason(), Some(segment_table::Reason::NoFrameTime));
/// assert_eq!(refusal.words(), "a time can't be had: its scale is 0, or it is outside 64 bits");
/// assert_eq!(refusal.to_string(), format!("refused 23 at 0: {}", refusal.words()));
/// ```
#[derive(Clone, Copy, Debug, PartialEq, Eq, Hash)]
pub struct Refusal {
    /// Which refusal it is: the number of a [`Reason`].
    pub number: u64,
    /// The source, segment, row, range, timestamp or frame of a list that is refused, or a broken header's offset, by the number; 0 where there
    /// is none.
    pub index: u64,
}

impl Refusal {
    /// The reason that the number stands for; none of a number that no call answers.
    #[must_use]
    pub fn reason(&self) -> Option<Reason> {
        ffi::REASONS.iter().copied().find(|reason| *reason as u64 == self.number)
    }

    /// What the number says.
    #[must_use]
    pub fn words(&self) -> &'static str {
        self.reason().map_or("no such refusal", Reason::words)
    }
}

impl fmt::Display for Refusal {
    fn fmt(&self, f: &mut fmt::Formatter<'_>) -> fmt::Result {
        write!(f, "refused {} at {}: {}", self.number, self.index, self.words())
    }
}

impl std::error::Error for Refusal {}

/// Its words.
///
/// ```
/// assert_eq!(segment_table::Reason::NoSegments.to_string(), "there are no segments");
/// ```
impl fmt::Display for Reason {
    fn fmt(&self, f: &mut fmt::Formatter<'_>) -> fmt::Result {
        f.write_str(self.words())
    }
}

impl std::error::Error for Reason {}

/// A call's answer: the value where its number is 0, else the refusal.
fn answer<T>(number: u64, index: u64, value: T) -> Result<T, Refusal> {
    match number {
        0 => Ok(value),
        number => Err(Refusal { number, index }),
    }
}

/// Whether bytes are a creation time by the UTC rule, `YYYY-MM-DDTHH:MM:SSZ`.
///
/// ```
/// assert!(segment_table::is_utc_second(b"0000-02-29T00:00:00Z"));
/// assert!(!segment_table::is_utc_second(b"1900-02-29T00:00:00Z"));
/// ```
#[must_use]
pub fn is_utc_second(bytes: &[u8]) -> bool {
    unsafe { ffi::st_is_utc_second(bytes.as_ptr(), bytes.len()) }
}

/// Ticks of a scale in microseconds, to the nearest whole number; halves go away from zero. Refuses 20, 23.
///
/// ```
/// assert_eq!(segment_table::ticks_to_us(1001, 30000), Ok(33367));
/// assert_eq!(segment_table::ticks_to_us(-1, 2_000_000), Ok(-1));
/// ```
pub fn ticks_to_us(ticks: i64, scale: u64) -> Result<i64, Refusal> {
    let (mut us, mut index) = (0, 0);
    let number = unsafe { ffi::st_ticks_to_us(ticks, scale, &mut us, &mut index) };
    answer(number, index, us)
}
