// Written by tools/header from the Rattle source; `tools/header --check` compares it.

//! The C face itself. `include/segment_table.h` says what each call is lent, writes and refuses.

/// Where a frame comes from (RULES 10.2).
#[repr(C)]
#[derive(Clone, Copy, Debug, Default, PartialEq, Eq)]
pub struct Origin {
    /// The source's number.
    pub source: u64,
    /// The frame there.
    pub frame: u64,
    /// Whether it has a shift: 1 or 0.
    pub flag: u64,
    /// The shift, in ticks of the source's clock, 0 where there is none.
    pub shift: i64,
}

/// A segment as one record, with its times in microseconds: the Rust's TrimSegment.
#[repr(C)]
#[derive(Clone, Copy, Debug, Default, PartialEq, Eq)]
pub struct TrimSegment {
    /// The source's number.
    pub source: u64,
    /// Its first frame in the source.
    pub src_first_frame: u64,
    /// How many frames it has.
    pub frame_count: u64,
    /// Its first frame in the output.
    pub out_first_frame: u64,
    /// Where it starts in the source.
    pub src_start_us: i64,
    /// Where it starts in the output.
    pub out_start_us: i64,
    /// How long it is.
    pub duration_us: i64,
    /// Where its capture starts in the source.
    pub src_capture_start_us: i64,
    /// Where its capture starts in the output.
    pub out_capture_start_us: i64,
    /// How long its capture is.
    pub capture_duration_us: i64,
    /// Whether it has a shift.
    pub shift_present: bool,
    /// The shift, ignored where there is none.
    pub clock_shift: i64,
}

/// What was read of a table's text.
#[repr(C)]
#[derive(Clone, Copy, Debug, Default, PartialEq, Eq)]
pub struct TableRead {
    /// How many frames the table has.
    pub frames: u64,
    /// How many sources it has; thirteen words each are written.
    pub sources: u64,
    /// How many segments it has; five words and seven stamps each are written.
    pub segments: u64,
    /// How many bytes its creation times have, which are all written.
    pub dates: u64,
    /// 1 where it names a telemetry log, else 0.
    pub log: u64,
}

extern "C" {
    /// Whether bytes are a creation time by the UTC rule: 20 bytes, YYYY-MM-DDTHH:MM:SSZ.
    /// Lent: the bytes. Writes nothing, refuses nothing.
    /// A null pointer only with length 0.
    pub fn st_is_utc_second(bytes: *const u8, bytes_len: usize) -> bool;

    /// Ticks of a scale in microseconds, to the nearest whole number; halves go away from zero.
    /// Lent: nothing. Writes us, index. Refuses: 20, 23.
    pub fn st_ticks_to_us(ticks: i64, scale: u64, us: *mut i64, index: *mut u64) -> u64;

    /// The frames start..end of a map as a map: each row's overlap, counted from start. Lent: a map, and
    /// room for the rows. Writes the rows, rows (how many), index. Refuses: 51, 52, 50, 52.
    /// A null pointer only with length 0; what is written overlaps nothing else, or memory may be corrupted.
    pub fn st_cut(words: *const u64, words_len: usize, shifts: *const i64, shifts_len: usize, start: u64, end: u64, out_words: *mut u64, out_words_len: usize, out_shifts: *mut i64, out_shifts_len: usize, rows: *mut u64, index: *mut u64) -> u64;

    /// Cuts of several ranges of a map, which is tested once: of each range the rows that st_cut writes,
    /// one cut after the other. Lent: a map; ranges, two words each, start and end, or none; room for
    /// the rows of all cuts, and for a count of each. Writes the rows, counts (how many each cut has),
    /// rows (how many in all, which may be over 1,024), index. Refuses: 51, 52, 50, 52.
    /// A null pointer only with length 0; what is written overlaps nothing else, or memory may be corrupted.
    pub fn st_cuts(words: *const u64, words_len: usize, shifts: *const i64, shifts_len: usize, ranges: *const u64, ranges_len: usize, out_words: *mut u64, out_words_len: usize, out_shifts: *mut i64, out_shifts_len: usize, counts: *mut u64, counts_len: usize, rows: *mut u64, index: *mut u64) -> u64;

    /// Two maps as one, the second after the first.
    /// Lent: two maps, and room for the rows. Writes the rows, rows (how many), index. Refuses: 51 (of
    /// the first map, then of the second), 52, 53, 52.
    /// A null pointer only with length 0; what is written overlaps nothing else, or memory may be corrupted.
    pub fn st_join(words: *const u64, words_len: usize, shifts: *const i64, shifts_len: usize, second_words: *const u64, second_words_len: usize, second_shifts: *const i64, second_shifts_len: usize, out_words: *mut u64, out_words_len: usize, out_shifts: *mut i64, out_shifts_len: usize, rows: *mut u64, index: *mut u64) -> u64;

    /// A map with one row of neighbours that continue: the same source, frames that run on, flag and
    /// shift equal. Lent: a map, and room for the rows. Writes the rows, rows (how many), index.
    /// Refuses: 51, 52, 52.
    /// A null pointer only with length 0; what is written overlaps nothing else, or memory may be corrupted.
    pub fn st_merge(words: *const u64, words_len: usize, shifts: *const i64, shifts_len: usize, out_words: *mut u64, out_words_len: usize, out_shifts: *mut i64, out_shifts_len: usize, rows: *mut u64, index: *mut u64) -> u64;

    /// Where a frame comes from: its source, its frame there, the shift's flag (1 present, 0 absent) and
    /// the shift. Lent: a map. Writes source, source_frame, flag, shift, index. Refuses: 51, 52, 54.
    /// A null pointer only with length 0.
    pub fn st_origin(words: *const u64, words_len: usize, shifts: *const i64, shifts_len: usize, frame: u64, source: *mut u64, source_frame: *mut u64, flag: *mut u64, shift: *mut i64, index: *mut u64) -> u64;

    /// Where each frame of a list comes from, in any order: what st_origin answers of it, as one struct a
    /// frame. The map is tested once, also for an empty list. Lent: a map, the frames, and room for one
    /// origin a frame. Writes out_origins, written (how many), index. Refuses: 51, 52, 54, 32.
    /// A null pointer only with length 0; what is written overlaps nothing else, or memory may be corrupted.
    pub fn st_origins(words: *const u64, words_len: usize, shifts: *const i64, shifts_len: usize, frames: *const u64, frames_len: usize, out_origins: *mut Origin, out_origins_len: usize, written: *mut u64, index: *mut u64) -> u64;

    /// Judges a table where its file has no video: it is always refused.
    /// Lent: a table. Writes index. Refuses: 1 to 17, 21.
    /// A null pointer only with length 0.
    pub fn st_validate_no_video(sources: *const u64, sources_len: usize, segments: *const u64, segments_len: usize, stamps: *const i64, stamps_len: usize, log: bool, text: *const u8, text_len: usize, index: *mut u64) -> u64;

    /// Judges a table by a video of video_frames frames at numerator / denominator a second: its frame
    /// total. Lent: a table. Writes frames, index. Refuses: 1 to 17, 20, 22, 23 with 24, 25.
    /// A null pointer only with length 0.
    pub fn st_validate_constant(sources: *const u64, sources_len: usize, segments: *const u64, segments_len: usize, stamps: *const i64, stamps_len: usize, log: bool, text: *const u8, text_len: usize, video_frames: u64, numerator: u64, denominator: u64, frames: *mut u64, index: *mut u64) -> u64;

    /// Judges a table by a video's frame times, in ticks of scale a second: its frame total. The last
    /// frame ends at end. Lent: a table, the starts. Writes frames, index. Refuses: 1 to 17, 20, 22, 23
    /// with 24, 25.
    /// A null pointer only with length 0.
    pub fn st_validate_times(sources: *const u64, sources_len: usize, segments: *const u64, segments_len: usize, stamps: *const i64, stamps_len: usize, log: bool, text: *const u8, text_len: usize, scale: u64, starts: *const i64, starts_len: usize, end: i64, nominal: i64, frames: *mut u64, index: *mut u64) -> u64;

    /// Judges a table by the timestamps of a MotionCam recording's frames, in nanoseconds: its frame
    /// total. One timestamp is judged as one frame at the rate of segment 0's source.
    /// Lent: a table, the timestamps, two working slices as long as the timestamps or longer (of one
    /// timestamp, of any length). Writes both working slices (all 0), frames, index. Refuses: 1 to 17,
    /// 30, 35, 34, 33, 32, 35, 33, 20, 22, 23 with 24, 25.
    /// A null pointer only with length 0; what is written overlaps nothing else, or memory may be corrupted.
    pub fn st_check_mcraw(sources: *const u64, sources_len: usize, segments: *const u64, segments_len: usize, stamps: *const i64, stamps_len: usize, log: bool, text: *const u8, text_len: usize, timestamps: *const i64, timestamps_len: usize, first_work: *mut i64, first_work_len: usize, second_work: *mut i64, second_work_len: usize, frames: *mut u64, index: *mut u64) -> u64;

    /// The segment of a frame, over a list of records instead of words; the answer is
    /// st_segment_of_frame's. Lent: the sources' words, the text, the records. Writes segment, index.
    /// Refuses: 1 to 17.
    /// A null pointer only with length 0.
    pub fn st_segment_of_frame_records(sources: *const u64, sources_len: usize, text: *const u8, text_len: usize, records: *const TrimSegment, records_len: usize, log: bool, frame: u64, segment: *mut u64, index: *mut u64) -> u64;

    /// The frame times of a MotionCam recording, of its frames' timestamps in nanoseconds: how many,
    /// their scale (1,000,000,000), the nominal interval and the end; the starts count from the first
    /// timestamp. Lent: the timestamps, room for the starts, a working slice; both as long as the
    /// timestamps or longer. Writes starts, work (all 0), frames, scale, nominal, end, index. Refuses:
    /// 30, 31, 34, 33, 32, 31, 33.
    /// A null pointer only with length 0; what is written overlaps nothing else, or memory may be corrupted.
    pub fn st_mcraw_times(timestamps: *const i64, timestamps_len: usize, starts: *mut i64, starts_len: usize, work: *mut i64, work_len: usize, frames: *mut u64, scale: *mut u64, nominal: *mut i64, end: *mut i64, index: *mut u64) -> u64;

    /// The frame times of a moov's first video track: how many, their timescale, the nominal interval
    /// and the end; the starts in presentation order. The mvhd and that track have to be found in moov,
    /// and in the track mdia, mdhd, minf, stbl and stts: where one isn't, it is 31, or 36 with the
    /// offset in moov of the broken header that hides it. A track that is broken before its hdlr, or at
    /// it, isn't seen to be of video, and is passed over; where there is no other video track, the
    /// answer goes by how the boxes of moov itself end. Where a broken header hides ctts, edts or elst,
    /// that counts as absent. With standard the composition offsets of a ctts of version 0 are unsigned,
    /// as ISO/IEC 14496-12 has them, and of any other version signed; without it they are signed in
    /// every version, as in the Rust. Without it is also how to read a QuickTime file that has negative
    /// offsets in version 0, as Apple describes them as signed. Where no offset of version 0 has its top
    /// bit set, both answer the same.
    /// Lent: the payload of a moov box (where a file has none, st_find_box says why, with an offset in
    /// the file), room for the starts, two working slices as long. As many elements as the track has
    /// frames are enough for each; it has no more than moov has bytes, else it is 31. Writes starts,
    /// both working slices (all 0), frames, scale, nominal, end, index. Refuses: 30, 31 or 36, 32, 31,
    /// 33.
    /// A null pointer only with length 0; what is written overlaps nothing else, or memory may be corrupted.
    pub fn st_video_frame_times_of_moov(moov: *const u8, moov_len: usize, standard: bool, starts: *mut i64, starts_len: usize, first_work: *mut i64, first_work_len: usize, second_work: *mut i64, second_work_len: usize, frames: *mut u64, scale: *mut u64, nominal: *mut i64, end: *mut i64, index: *mut u64) -> u64;

    /// Checks a table: its frame total.
    /// Lent: a table. Writes frames, index. Refuses: 1 to 17.
    /// A null pointer only with length 0.
    pub fn st_check(sources: *const u64, sources_len: usize, segments: *const u64, segments_len: usize, stamps: *const i64, stamps_len: usize, log: bool, text: *const u8, text_len: usize, frames: *mut u64, index: *mut u64) -> u64;

    /// The segment of a frame: the number of segments that end at or before it, at most the last index.
    /// Lent: a table. Writes segment, index. Refuses: 1 to 17.
    /// A null pointer only with length 0.
    pub fn st_segment_of_frame(sources: *const u64, sources_len: usize, segments: *const u64, segments_len: usize, stamps: *const i64, stamps_len: usize, log: bool, text: *const u8, text_len: usize, frame: u64, segment: *mut u64, index: *mut u64) -> u64;

    /// The segment of each frame of a list, in any order: what st_segment_of_frame answers of it. The
    /// table is checked once, also for an empty list. The frames and out_segments may not be one array.
    /// Lent: a table, the frames, and room for one index a frame. Writes out_segments, written (how
    /// many), index. Refuses: 1 to 17, 32.
    /// A null pointer only with length 0; what is written overlaps nothing else, or memory may be corrupted.
    pub fn st_segments_of_frames(sources: *const u64, sources_len: usize, segments: *const u64, segments_len: usize, stamps: *const i64, stamps_len: usize, log: bool, text: *const u8, text_len: usize, frames: *const u64, frames_len: usize, out_segments: *mut u64, out_segments_len: usize, written: *mut u64, index: *mut u64) -> u64;

    /// The segment of a time in microseconds: the number of segments that end at or before it, at most
    /// the last index. Lent: a table. Writes segment, index. Refuses: 1 to 17.
    /// A null pointer only with length 0.
    pub fn st_segment_of_time_us(sources: *const u64, sources_len: usize, segments: *const u64, segments_len: usize, stamps: *const i64, stamps_len: usize, log: bool, text: *const u8, text_len: usize, time: i64, segment: *mut u64, index: *mut u64) -> u64;

    /// Whether a segment continues the one before it: the same source, source frames that run on, equal
    /// shift. Answers 1 or 0, and 0 for the first segment and for one that isn't there. Lent: a table.
    /// Writes answer, index. Refuses: 1 to 17.
    /// A null pointer only with length 0.
    pub fn st_continues(sources: *const u64, sources_len: usize, segments: *const u64, segments_len: usize, stamps: *const i64, stamps_len: usize, log: bool, text: *const u8, text_len: usize, segment: u64, answer: *mut u64, index: *mut u64) -> u64;

    /// The map of an accepted table: one row a segment, an absent shift as 0. Lent: a table, and room
    /// for the rows. Writes the rows, rows (how many), index. Refuses: 1 to 17, 32.
    /// A null pointer only with length 0; what is written overlaps nothing else, or memory may be corrupted.
    pub fn st_rows_of_table(sources: *const u64, sources_len: usize, segments: *const u64, segments_len: usize, stamps: *const i64, stamps_len: usize, log: bool, text: *const u8, text_len: usize, out_words: *mut u64, out_words_len: usize, out_shifts: *mut i64, out_shifts_len: usize, rows: *mut u64, index: *mut u64) -> u64;

    /// Reads a table's text: the words, stamps and creation times that all other calls are lent of a
    /// table, its frame total, and whether it names a telemetry log. All of the text is tested before
    /// anything is written: first that it is JSON, then that no object has a name twice, then its
    /// version, then each member by its type, and then the table as st_check does, with its indices. A
    /// member that no table needs may hold anything. Words of an absent thing are 0.
    /// Lent: the text (of a file, what st_table_text finds); room for the sources, the segments, their
    /// stamps and the creation times' bytes; a working slice of a quarter as many words as the text has
    /// bytes, rounded up, and at least 3,840. 3,328 words, 2,560 words, 3,584 stamps and as many bytes as
    /// the text has are enough for every table. To other calls lend what was written, not the room:
    /// thirteen words a source, five words and seven stamps a segment, and the creation times as their
    /// text. Writes sources, segments, stamps, dates, work (all 0), read, index. Refuses: 60,
    /// 32 (the working slice), 61 to 64, 2, 32, 3 to 17.
    /// A null pointer only with length 0; what is written overlaps nothing else, or memory may be corrupted.
    pub fn st_read_table(text: *const u8, text_len: usize, sources: *mut u64, sources_len: usize, segments: *mut u64, segments_len: usize, stamps: *mut i64, stamps_len: usize, dates: *mut u8, dates_len: usize, work: *mut u64, work_len: usize, read: *mut TableRead, index: *mut u64) -> u64;

    /// Where the names of a table's sources stand in its text: two words a source, where the name starts
    /// and how long it is, in bytes, without its quotation marks and with its escapes as they stand.
    /// st_json_string, lent the start less one, resolves them. The text is tested as st_read_table tests
    /// it, but not the table.
    /// Lent: the text; room for two words a source; a working slice as long as that of st_read_table.
    /// Writes names, work (all 0), count (how many sources), index. Refuses: 60, 32 (the working slice),
    /// 61 to 64, 2, 32.
    /// A null pointer only with length 0; what is written overlaps nothing else, or memory may be corrupted.
    pub fn st_source_names(text: *const u8, text_len: usize, names: *mut u64, names_len: usize, work: *mut u64, work_len: usize, count: *mut u64, index: *mut u64) -> u64;

    /// The bytes of a string that stands in a text, in UTF-8, its escapes resolved: that whose opening
    /// quotation mark stands at offset `at`. Nothing before it, and nothing after its closing quotation
    /// mark, is looked at. It is 61 where no whole string stands there.
    /// Lent: the text; room for the bytes, which are no more than stand between the quotation marks.
    /// Writes out, length (how many bytes), index. Refuses: 60, 61, 32.
    /// A null pointer only with length 0; what is written overlaps nothing else, or memory may be corrupted.
    pub fn st_json_string(text: *const u8, text_len: usize, at: u64, out: *mut u8, out_len: usize, length: *mut u64, index: *mut u64) -> u64;

    /// The size of the box at the start of data, and of its header, where `remaining` bytes are left of
    /// what it is in. Lent: the bytes at hand. Writes size, header, index. Refuses: 30, 31.
    /// A null pointer only with length 0.
    pub fn st_box_size(data: *const u8, data_len: usize, remaining: u64, size: *mut u64, header: *mut u64, index: *mut u64) -> u64;

    /// The box at offset `at` of payload: its type (`kind`, its four bytes, big-endian), where its
    /// payload lies, and where the next box is. From 0 on, and then from each answer's `next`, all boxes
    /// are met, in order, until 31: fewer than 8 bytes are left there, or 36: a broken header stands
    /// there, and the index is `at`. Lent: a box's payload. Writes kind, start, length, next, index.
    /// Refuses: 30, 42, 31 or 36.
    /// A null pointer only with length 0.
    pub fn st_children(payload: *const u8, payload_len: usize, at: u64, kind: *mut u32, start: *mut u64, length: *mut u64, next: *mut u64, index: *mut u64) -> u64;

    /// Where the payload of the first child of a type lies in payload; `kind` is the type's four bytes,
    /// big-endian. It is 31 where the boxes end without it, and 36 where a broken header ends them
    /// before, with its offset in payload. Lent: a box's payload. Writes start, length, index. Refuses:
    /// 30, 31 or 36.
    /// A null pointer only with length 0.
    pub fn st_child(payload: *const u8, payload_len: usize, kind: u32, start: *mut u64, length: *mut u64, index: *mut u64) -> u64;

    /// Where the payload of the first box of a type among those of from..to lies in bytes. It is 31
    /// where the boxes end without it, and 36 where a broken header ends them before, with its offset in
    /// the whole of bytes. With text_types a type with a byte outside 20..7E hex makes a header broken.
    /// Lent: the bytes. Writes start, length, index. Refuses: 30, 42, 31 or 36.
    /// A null pointer only with length 0.
    pub fn st_find_box(bytes: *const u8, bytes_len: usize, from: u64, to: u64, kind: u32, text_types: bool, start: *mut u64, length: *mut u64, index: *mut u64) -> u64;

    /// Where a file's segment table has its text: the payload of the only moov/udta/MTRM box. Where a
    /// broken header hides it, it is 40 too.
    /// Lent: the file's bytes. Writes start, length, index. Refuses: 30, 40, 41.
    /// A null pointer only with length 0.
    pub fn st_table_text(file: *const u8, file_len: usize, start: *mut u64, length: *mut u64, index: *mut u64) -> u64;
}

/// Why a call refuses, each reason with the number that is answered.
#[repr(u64)]
#[non_exhaustive]
#[derive(Clone, Copy, Debug, PartialEq, Eq, Hash)]
pub enum Reason {
    /// A slice length is no multiple of its record, the two segment slices disagree, a flag or kind
    /// is outside its set, or a present creation time's range leaves the text.
    Malformed = 1,
    /// There are over 256 sources or over 512 segments.
    OverLimit = 2,
    /// There are no sources.
    NoSources = 3,
    /// The source has 0 frames, or a 0 in its frames a second.
    ZeroInSource = 4,
    /// The source's creation time fails the UTC rule.
    BadDate = 5,
    /// The source's clock has a 0 in its rate, or the modulus 0.
    BadClock = 6,
    /// A log is named, and the source has no clock.
    NoClock = 7,
    /// There are no segments.
    NoSegments = 8,
    /// The segment names no source of the table.
    NoSuchSource = 9,
    /// The segment's frame count is 0.
    NoFrames = 10,
    /// The segment's out first or source first plus its frame count passes 2^64 - 1.
    FramesWrap = 11,
    /// The segment's source first plus its frame count passes its source's frames.
    PastSource = 12,
    /// One of the segment's six times is below 0.
    NegativeTime = 13,
    /// One of the segment's starts plus its duration passes 2^63 - 1; that is source start plus
    /// duration or the capture pair, or, tested after 16, out start plus duration or its capture
    /// pair.
    TooLate = 14,
    /// The segment's out first isn't where the frames before it end; 0 for the first.
    FrameGap = 15,
    /// The segment's out start or out capture start isn't where the times before it end; those of
    /// the first are free.
    TimeGap = 16,
    /// The segment has a shift and no clock, a clock and no shift, or a shift outside its clock's
    /// modulus.
    BadShift = 17,
    /// A rate number or timescale is over 4,294,967,295, or there are over 16,777,216 starts.
    TooLarge = 20,
    /// No video is given.
    NoVideo = 21,
    /// The table's frames aren't as many as the video's.
    OtherFrameCount = 22,
    /// A time can't be had: its scale is 0, or it is outside 64 bits; of a table, the time of a
    /// segment's first frame.
    NoFrameTime = 23,
    /// The segment's out start isn't its first frame's time.
    OtherFrameTime = 24,
    /// The table's end isn't near the video's; that is |2 end_us scale - 2 end 1,000,000| over 2
    /// nominal 1,000,000 + scale, where end_us is the last segment's out start plus duration; the
    /// nominal of a constant video is its denominator, and its scale the numerator.
    EndNotNear = 25,
    /// Over 16,777,216 bytes or timestamps are lent.
    TooLong = 30,
    /// Missing: the boxes end without the one that is looked for, no size is whole and fits, or no
    /// frame times can be had; boxes end where fewer than 8 bytes are left; the size is that of
    /// `box_size`.
    Missing = 31,
    /// Too little room is lent; of `cut`, `cuts`, `join` and `merge` that is 52.
    NoRoom = 32,
    /// A start, a span or an end is outside 64 bits.
    Outside = 33,
    /// The timestamps fall; equal neighbours don't.
    Falling = 34,
    /// The recording has no frame times: no frames, or a nominal interval of 0.
    NoRecordingTimes = 35,
    /// Broken: before what is looked for stands a broken box header, at the index; its size isn't
    /// whole or doesn't fit, or, of `find_box` with text_types, its type has a byte outside 20 to 7E
    /// hex.
    Broken = 36,
    /// The file has no MTRM box: no moov, no udta in it, or none in that.
    NoTable = 40,
    /// The file has more than one MTRM box.
    SeveralTables = 41,
    /// A search range lies outside the bytes, or starts past its end, or an offset lies past the
    /// bytes.
    BadSearch = 42,
    /// A cut's range has no frames, or ends past the map; of many cuts also a range without its end.
    BadRange = 50,
    /// A map's rows aren't well formed, slice lengths disagree, or there are no rows.
    BadRows = 51,
    /// A map has, or would have, over 1,024 rows, or too little room is lent for rows; all cuts of
    /// one call together may have more.
    RowsDontFit = 52,
    /// The frames of both maps together pass 2^64 - 1.
    JoinWraps = 53,
    /// A frame lies past the map.
    PastMap = 54,
    /// The table's text has over 1,048,576 bytes.
    TextTooLong = 60,
    /// The table's text isn't JSON, or over 32 lists and objects stand one in another; it breaks RFC
    /// 8259's grammar, a string holds half a surrogate pair, or bytes are no UTF-8.
    NotJson = 61,
    /// An object in the table's text has a name twice; at any depth, in members that are skipped
    /// too, escapes resolved.
    RepeatedName = 62,
    /// The table's version isn't 1; or the text's value is no object.
    OtherVersion = 63,
    /// A member of the table's text is missing or has another type; what follows the Rust's
    /// `SegmentTable::parse`.
    BadMember = 64,
}

impl Reason {
    /// What the reason is, for people.
    #[must_use]
    pub const fn words(self) -> &'static str {
        match self {
            Reason::Malformed => "a slice length is no multiple of its record, the two segment slices disagree, a flag or kind is outside its set, or a present creation time's range leaves the text",
            Reason::OverLimit => "there are over 256 sources or over 512 segments",
            Reason::NoSources => "there are no sources",
            Reason::ZeroInSource => "the source has 0 frames, or a 0 in its frames a second",
            Reason::BadDate => "the source's creation time fails the UTC rule",
            Reason::BadClock => "the source's clock has a 0 in its rate, or the modulus 0",
            Reason::NoClock => "a log is named, and the source has no clock",
            Reason::NoSegments => "there are no segments",
            Reason::NoSuchSource => "the segment names no source of the table",
            Reason::NoFrames => "the segment's frame count is 0",
            Reason::FramesWrap => "the segment's out first or source first plus its frame count passes 2^64 - 1",
            Reason::PastSource => "the segment's source first plus its frame count passes its source's frames",
            Reason::NegativeTime => "one of the segment's six times is below 0",
            Reason::TooLate => "one of the segment's starts plus its duration passes 2^63 - 1",
            Reason::FrameGap => "the segment's out first isn't where the frames before it end",
            Reason::TimeGap => "the segment's out start or out capture start isn't where the times before it end",
            Reason::BadShift => "the segment has a shift and no clock, a clock and no shift, or a shift outside its clock's modulus",
            Reason::TooLarge => "a rate number or timescale is over 4,294,967,295, or there are over 16,777,216 starts",
            Reason::NoVideo => "no video is given",
            Reason::OtherFrameCount => "the table's frames aren't as many as the video's",
            Reason::NoFrameTime => "a time can't be had: its scale is 0, or it is outside 64 bits",
            Reason::OtherFrameTime => "the segment's out start isn't its first frame's time",
            Reason::EndNotNear => "the table's end isn't near the video's",
            Reason::TooLong => "over 16,777,216 bytes or timestamps are lent",
            Reason::Missing => "missing: the boxes end without the one that is looked for, no size is whole and fits, or no frame times can be had",
            Reason::NoRoom => "too little room is lent",
            Reason::Outside => "a start, a span or an end is outside 64 bits",
            Reason::Falling => "the timestamps fall",
            Reason::NoRecordingTimes => "the recording has no frame times: no frames, or a nominal interval of 0",
            Reason::Broken => "broken: before what is looked for stands a broken box header, at the index",
            Reason::NoTable => "the file has no MTRM box: no moov, no udta in it, or none in that",
            Reason::SeveralTables => "the file has more than one MTRM box",
            Reason::BadSearch => "a search range lies outside the bytes, or starts past its end, or an offset lies past the bytes",
            Reason::BadRange => "a cut's range has no frames, or ends past the map; of many cuts also a range without its end",
            Reason::BadRows => "a map's rows aren't well formed, slice lengths disagree, or there are no rows",
            Reason::RowsDontFit => "a map has, or would have, over 1,024 rows, or too little room is lent for rows",
            Reason::JoinWraps => "the frames of both maps together pass 2^64 - 1",
            Reason::PastMap => "a frame lies past the map",
            Reason::TextTooLong => "the table's text has over 1,048,576 bytes",
            Reason::NotJson => "the table's text isn't JSON, or over 32 lists and objects stand one in another",
            Reason::RepeatedName => "an object in the table's text has a name twice",
            Reason::OtherVersion => "the table's version isn't 1",
            Reason::BadMember => "a member of the table's text is missing or has another type",
        }
    }
}

/// Every reason.
pub const REASONS: &[Reason] = &[
    Reason::Malformed,
    Reason::OverLimit,
    Reason::NoSources,
    Reason::ZeroInSource,
    Reason::BadDate,
    Reason::BadClock,
    Reason::NoClock,
    Reason::NoSegments,
    Reason::NoSuchSource,
    Reason::NoFrames,
    Reason::FramesWrap,
    Reason::PastSource,
    Reason::NegativeTime,
    Reason::TooLate,
    Reason::FrameGap,
    Reason::TimeGap,
    Reason::BadShift,
    Reason::TooLarge,
    Reason::NoVideo,
    Reason::OtherFrameCount,
    Reason::NoFrameTime,
    Reason::OtherFrameTime,
    Reason::EndNotNear,
    Reason::TooLong,
    Reason::Missing,
    Reason::NoRoom,
    Reason::Outside,
    Reason::Falling,
    Reason::NoRecordingTimes,
    Reason::Broken,
    Reason::NoTable,
    Reason::SeveralTables,
    Reason::BadSearch,
    Reason::BadRange,
    Reason::BadRows,
    Reason::RowsDontFit,
    Reason::JoinWraps,
    Reason::PastMap,
    Reason::TextTooLong,
    Reason::NotJson,
    Reason::RepeatedName,
    Reason::OtherVersion,
    Reason::BadMember,
];

/// Each refusal number with its words.
pub const REFUSALS: &[(u64, &str)] = &[
    (1, Reason::Malformed.words()),
    (2, Reason::OverLimit.words()),
    (3, Reason::NoSources.words()),
    (4, Reason::ZeroInSource.words()),
    (5, Reason::BadDate.words()),
    (6, Reason::BadClock.words()),
    (7, Reason::NoClock.words()),
    (8, Reason::NoSegments.words()),
    (9, Reason::NoSuchSource.words()),
    (10, Reason::NoFrames.words()),
    (11, Reason::FramesWrap.words()),
    (12, Reason::PastSource.words()),
    (13, Reason::NegativeTime.words()),
    (14, Reason::TooLate.words()),
    (15, Reason::FrameGap.words()),
    (16, Reason::TimeGap.words()),
    (17, Reason::BadShift.words()),
    (20, Reason::TooLarge.words()),
    (21, Reason::NoVideo.words()),
    (22, Reason::OtherFrameCount.words()),
    (23, Reason::NoFrameTime.words()),
    (24, Reason::OtherFrameTime.words()),
    (25, Reason::EndNotNear.words()),
    (30, Reason::TooLong.words()),
    (31, Reason::Missing.words()),
    (32, Reason::NoRoom.words()),
    (33, Reason::Outside.words()),
    (34, Reason::Falling.words()),
    (35, Reason::NoRecordingTimes.words()),
    (36, Reason::Broken.words()),
    (40, Reason::NoTable.words()),
    (41, Reason::SeveralTables.words()),
    (42, Reason::BadSearch.words()),
    (50, Reason::BadRange.words()),
    (51, Reason::BadRows.words()),
    (52, Reason::RowsDontFit.words()),
    (53, Reason::JoinWraps.words()),
    (54, Reason::PastMap.words()),
    (60, Reason::TextTooLong.words()),
    (61, Reason::NotJson.words()),
    (62, Reason::RepeatedName.words()),
    (63, Reason::OtherVersion.words()),
    (64, Reason::BadMember.words()),
];
