//! A table against the video that it was written for.
use crate::{answer, recording::room_for, FrameTimes, Refusal, Table};

/// The video of a file.
#[derive(Clone, Copy, Debug, PartialEq, Eq)]
pub enum Video<'a> {
    /// There is none.
    Absent,
    /// So many frames at a constant rate.
    Constant {
        /// How many frames it has.
        frames: u64,
        /// Frames a second, as a fraction.
        fps: (u64, u64),
    },
    /// The times of its frames.
    Times(&'a FrameTimes),
}

impl Table {
    /// Judges the table by its file's video: the frame total. Refuses 21, 20, 22, 23 and 24 with the segment, 25.
    ///
    /// ```
    /// use segment_table::{FrameTimes, Segment, Source, Table, Video};
    ///
    /// let source = Source { frames: 100, fps: (25, 1), ..Source::default() };
    /// let segment = Segment { frame_count: 3, duration_us: 120_000, ..Segment::default() };
    /// let table = Table::new(&[source], &[segment], false)?;
    /// assert_eq!(table.validate(Video::Constant { frames: 3, fps: (25, 1) }), Ok(3));
    /// let times = FrameTimes { scale: 1000, nominal: 40, end: 120, starts: vec![0, 40, 80] };
    /// assert_eq!(table.validate(Video::Times(&times)), Ok(3));
    /// assert_eq!(table.validate(Video::Absent).unwrap_err().number, 21);
    /// # Ok::<(), segment_table::Refusal>(())
    /// ```
    pub fn validate(&self, video: Video<'_>) -> Result<u64, Refusal> {
        let (mut frames, mut index) = (0, 0);
        let number = unsafe {
            match video {
                Video::Absent => lent!(st_validate_no_video, self, &mut index),
                Video::Constant { frames: n, fps } => lent!(st_validate_constant, self, n, fps.0, fps.1, &mut frames, &mut index),
                Video::Times(t) => lent!(
                    st_validate_times, self, t.scale, t.starts.as_ptr(), t.starts.len(), t.end, t.nominal, &mut frames, &mut index
                ),
            }
        };
        answer(number, index, frames)
    }

    /// Judges the table by the timestamps of a MotionCam recording's frames, in nanoseconds: the frame total. Refuses 30,
    /// 35, 34 with the timestamp, 33, 20, 22, 23 and 24 with the segment, 25.
    ///
    /// ```
    /// # use segment_table::{Segment, Source, Table};
    /// # let source = Source { frames: 100, fps: (25, 1), ..Source::default() };
    /// # let segment = Segment { frame_count: 3, duration_us: 120_000, ..Segment::default() };
    /// # let table = Table::new(&[source], &[segment], false)?;
    /// assert_eq!(table.check_mcraw(&[7_000_000, 47_000_000, 87_000_000]), Ok(3));
    /// assert_eq!(table.check_mcraw(&[]).unwrap_err().number, 35);
    /// # Ok::<(), segment_table::Refusal>(())
    /// ```
    pub fn check_mcraw(&self, timestamps: &[i64]) -> Result<u64, Refusal> {
        let room = room_for(timestamps);
        let (mut a, mut b) = (vec![0; room], vec![0; room]);
        let (mut frames, mut index) = (0, 0);
        let number = unsafe {
            lent!(
                st_check_mcraw, self, timestamps.as_ptr(), timestamps.len(), a.as_mut_ptr(), a.len(), b.as_mut_ptr(), b.len(),
                &mut frames, &mut index
            )
        };
        answer(number, index, frames)
    }
}
