//! Frame times of recordings.
use crate::{answer, ffi, Refusal};

/// The times of a recording's frames, in ticks of a scale.
#[derive(Clone, Debug, PartialEq, Eq)]
pub struct FrameTimes {
    /// Ticks a second.
    pub scale: u64,
    /// How long a frame is as a rule: of a moov the most frequent duration, of several the smallest; of a recording the
    /// middle interval.
    pub nominal: i64,
    /// Where the last frame ends.
    pub end: i64,
    /// Where each frame starts, in order.
    pub starts: Vec<i64>,
}

/// The frame times of a MotionCam recording, of its timestamps in nanoseconds. Refuses 30, 31, 34, 33.
///
/// ```
/// let times = segment_table::mcraw_times(&[1000, 1010, 1025])?;
/// assert_eq!((times.nominal, times.end, times.starts), (10, 35, vec![0, 10, 25]));
/// assert_eq!(segment_table::mcraw_times(&[2, 3, 1]).unwrap_err().index, 2);
/// # Ok::<(), segment_table::Refusal>(())
/// ```
pub fn mcraw_times(timestamps: &[i64]) -> Result<FrameTimes, Refusal> {
    let room = room_for(timestamps);
    let (mut starts, mut work) = (vec![0; room], vec![0; room]);
    let (mut frames, mut scale, mut nominal, mut end, mut index) = (0, 0, 0, 0, 0);
    let number = unsafe {
        ffi::st_mcraw_times(
            timestamps.as_ptr(), timestamps.len(), starts.as_mut_ptr(), starts.len(), work.as_mut_ptr(), work.len(),
            &mut frames, &mut scale, &mut nominal, &mut end, &mut index,
        )
    };
    answer(number, index, FrameTimes { scale, nominal, end, starts })
}

/// The most timestamps that a call takes.
const MOST_TIMESTAMPS: usize = 1 << 24;

/// The room that timestamps need in each slice; none where there are too many, which is refused before the room is looked at.
pub(crate) fn room_for(timestamps: &[i64]) -> usize {
    if timestamps.len() <= MOST_TIMESTAMPS { timestamps.len() } else { 0 }
}

/// The room that is lent first for a moov's frames.
const ROOM: usize = 4096;

/// The frame times of the first video track of a moov, of the box's payload. Refuses 30; 31 where there is no such track or no
/// times are to be had of it, or 36 where a broken header hides a box that is needed, with its offset in the payload; 33.
///
/// ```
/// let file = std::fs::read("../../crates/frametimes_files/data/m1").unwrap();
/// let moov = segment_table::find_box(&file, 0..file.len() as u64, *b"moov", false)?;
/// let times = segment_table::video_frame_times_of_moov(moov, true)?;
/// assert_eq!((times.scale, times.nominal, times.end, times.starts), (100, 10, 50, vec![10, 20, 40]));
/// let refusal = segment_table::video_frame_times_of_moov(&moov[..moov.len() - 1], true).unwrap_err();
/// assert_eq!((refusal.number, refusal.index), (36, 24));
/// # Ok::<(), segment_table::Refusal>(())
/// ```
///
/// `standard` says how the composition offsets of a ctts of version 0 are read; those of every other version are signed. `true`
/// reads them as unsigned, by ISO/IEC 14496-12: for ISO files, as the program `frametimes` does. `false` reads them as signed: for
/// what the Rust crate answers, and for QuickTime files with negative offsets there, as Apple describes them as signed. Both give
/// the same where no offset of version 0 has its top bit set. Of this time-lapse all have, as they are 2.4 seconds in nanoseconds:
///
/// ```
/// let file = std::fs::read("../../crates/frametimes_files/data/lapse").unwrap();
/// let moov = segment_table::find_box(&file, 0..file.len() as u64, *b"moov", false)?;
/// let times = segment_table::video_frame_times_of_moov(moov, true)?;
/// assert_eq!(times.starts, [2_400_000_000, 2_900_000_000, 3_400_000_000]);
/// // signed, each frame is before 0, where none is shown
/// assert_eq!(segment_table::video_frame_times_of_moov(moov, false).unwrap_err().number, 31);
/// # Ok::<(), segment_table::Refusal>(())
/// ```
///
/// While it answers, it takes memory for up to twice as many frames as the track has, 24 bytes a frame, and never more than 24 bytes
/// a byte of the moov.
pub fn video_frame_times_of_moov(moov: &[u8], standard: bool) -> Result<FrameTimes, Refusal> {
    // a track of more frames than its moov has bytes is refused with 31, so this much room is enough
    let mut room = ROOM.min(moov.len());
    loop {
        let (mut starts, mut a, mut b) = (vec![0; room], vec![0; room], vec![0; room]);
        let (mut frames, mut scale, mut nominal, mut end, mut index) = (0, 0, 0, 0, 0);
        let number = unsafe {
            ffi::st_video_frame_times_of_moov(
                moov.as_ptr(), moov.len(), standard, starts.as_mut_ptr(), room, a.as_mut_ptr(), room, b.as_mut_ptr(), room,
                &mut frames, &mut scale, &mut nominal, &mut end, &mut index,
            )
        };
        if number == 32 && room < moov.len() {
            room = (2 * room).min(moov.len());
            continue;
        }
        starts.truncate(frames as usize);
        starts.shrink_to_fit();
        return answer(number, index, FrameTimes { scale, nominal, end, starts });
    }
}
