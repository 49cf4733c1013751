/* segment_table: for every frame of a trimmed and joined recording, which camera original and which
 * frame of it lies behind it. Each call is proved to answer what docs/RULES.md and its contract
 * say, for everything that may be lent.
 *
 * Answers. A call that can refuse returns the refusal's number, and 0 where it accepts. It writes
 * `index` always: the refusal's index, or 0. It writes the other words only where it accepts.
 * Slices that it fills stay as lent on a refusal, and past an accepted answer's length; working
 * slices hold 0 after every answer. Memory that is lent to be written may be unset before the call.
 *
 * Lending. A slice is a pointer and a length in elements; its pointer may be null only with length
 * 0. A slice lies in memory, where it has at most 2^63 - 1 bytes: of a call that names more nothing
 * is proved, and it may read past what is lent. A word is a pointer to one number, and is never
 * null. Pointers to numbers are aligned as C aligns them; bytes may lie anywhere. A bool is 0 or 1.
 * size_t has 64 bits. No call keeps a pointer or a state, or allocates memory: calls may run in
 * several threads at once, while none writes what another is lent.
 *
 * Overlap. What a call may write overlaps nothing else that it is lent. No proof reaches a call
 * that breaks this: memory may be corrupted. With one array as both working slices
 * st_video_frame_times_of_moov can answer wrong starts, or end in a segmentation fault, where the
 * times of 17 frames or more are in no order; of fewer, or of times in order, nothing shows it. With
 * its timestamps as the starts st_mcraw_times answers wrong starts.
 *
 * Stack, as bindings/c/stack measures it on x86-64, and on Arm in an emulator: each call takes less
 * than 4 KiB, but st_read_table and st_source_names, whose lists and objects lie one in another and
 * whose names are sorted, less than 20 KiB. Copies and cleared slices are made by the C library's
 * memmove and memset. A program whose loader binds such a name at its first call, which is what
 * many linkers make, takes some 3 KiB more for that, at its first st_join, say; how much, the loader
 * and the processor decide. Where a task has less, link with `-z now`, which binds names at the
 * start, or statically.
 *
 * A table: `sources`, thirteen words each: frames; fps numerator, denominator; creation time present
 * (0, 1), its offset and length in `text`; clock (0 none, 1 no modulus, 2 modulus), its rate's
 * numerator, denominator, its modulus; the file's size in bytes; its IMU's origin known (0, 1), and
 * that origin in microseconds. `segments`, five words each: source, source first frame, frame
 * count, out first frame, shift present (0, 1). `stamps`, seven words a segment: source start, out
 * start, duration, source capture start, out capture start, capture duration (microseconds), shift.
 * `log`: the table names a telemetry log. `text`: the creation times' bytes. Words of an absent
 * thing, a source's size and its origin are ignored.
 *
 * Sources had ten words once. A table of such sources is refused with ST_MALFORMED, but where there
 * are 13, 26, 39 or 52 of them: then the number of words is a multiple of thirteen, and nothing
 * tells the 130 words of thirteen such sources from those of ten sources as they are now.
 *
 * A table's text: JSON in UTF-8, as a file has it. `dates` are the creation times that st_read_table
 * finds in it, one after another: it is what other calls are lent as `text`.
 *
 * A list of records: the same of a segment as one struct, where its flag is a bool and its times
 * follow the words. Records are aligned as C aligns them; what lies between their fields is not
 * read.
 *
 * A map: `words`, five a row: source, source first frame, frame count, out first frame, shift
 * present (0, 1); `shifts`, one a row, 0 where it is absent.
 *
 * Frame times: `starts`, where each frame starts, in ticks of `scale` a second; `end`, where the
 * last frame ends; `nominal`, how long a frame is as a rule. Of a moov that is the most frequent
 * duration of all frames, of several the smallest; of a recording the middle interval, the lower of
 * two.
 *
 * Refusals. The index is the source in 4 to 7, the segment in 9 to 17, 23 and 24, the later
 * timestamp of the first falling pair in 34, the broken header's offset in the lent bytes in 36,
 * 1 in 32 of st_read_table and st_source_names where it is their working slice that is too short,
 * the range in 50 of st_cuts (a last one without its end is tested first), the row in 51 (0 for
 * slice lengths or no rows, which are tested first), the frame's number in the list in 54 of
 * st_origins, else 0. Each call names its refusals in the order of its tests: 4 to 7 source by
 * source, 9 to 17 and 23 with 24 segment by segment, 50 of st_cuts range by range, 54 of st_origins
 * frame by frame, a join's 51 of its first map and then of its second. `31 or 36` is by how a walk
 * over boxes ended. What each number says stands in enum st_reason, with its name. */
#ifndef SEGMENT_TABLE_H
#define SEGMENT_TABLE_H

#include <stdbool.h>
#include <stddef.h>
#include <stdint.h>

#ifdef __cplusplus
extern "C" {
#endif

/* Why a call refuses: what each number that is answered says. */
enum st_reason {
    /* a slice length is no multiple of its record, the two segment slices disagree, a flag or kind
     * is outside its set, or a present creation time's range leaves the text */
    ST_MALFORMED = 1,
    /* there are over 256 sources or over 512 segments */
    ST_OVER_LIMIT = 2,
    /* there are no sources */
    ST_NO_SOURCES = 3,
    /* the source has 0 frames, or a 0 in its frames a second */
    ST_ZERO_IN_SOURCE = 4,
    /* the source's creation time fails the UTC rule */
    ST_BAD_DATE = 5,
    /* the source's clock has a 0 in its rate, or the modulus 0 */
    ST_BAD_CLOCK = 6,
    /* a log is named, and the source has no clock */
    ST_NO_CLOCK = 7,
    /* there are no segments */
    ST_NO_SEGMENTS = 8,
    /* the segment names no source of the table */
    ST_NO_SUCH_SOURCE = 9,
    /* the segment's frame count is 0 */
    ST_NO_FRAMES = 10,
    /* the segment's out first or source first plus its frame count passes 2^64 - 1 */
    ST_FRAMES_WRAP = 11,
    /* the segment's source first plus its frame count passes its source's frames */
    ST_PAST_SOURCE = 12,
    /* one of the segment's six times is below 0 */
    ST_NEGATIVE_TIME = 13,
    /* one of the segment's starts plus its duration passes 2^63 - 1; that is source start plus
     * duration or the capture pair, or, tested after 16, out start plus duration or its capture
     * pair */
    ST_TOO_LATE = 14,
    /* the segment's out first isn't where the frames before it end; 0 for the first */
    ST_FRAME_GAP = 15,
    /* the segment's out start or out capture start isn't where the times before it end; those of
     * the first are free */
    ST_TIME_GAP = 16,
    /* the segment has a shift and no clock, a clock and no shift, or a shift outside its clock's
     * modulus */
    ST_BAD_SHIFT = 17,
    /* a rate number or timescale is over 4,294,967,295, or there are over 16,777,216 starts */
    ST_TOO_LARGE = 20,
    /* no video is given */
    ST_NO_VIDEO = 21,
    /* the table's frames aren't as many as the video's */
    ST_OTHER_FRAME_COUNT = 22,
    /* a time can't be had: its scale is 0, or it is outside 64 bits; of a table, the time of a
     * segment's first frame */
    ST_NO_FRAME_TIME = 23,
    /* the segment's out start isn't its first frame's time */
    ST_OTHER_FRAME_TIME = 24,
    /* the table's end isn't near the video's; that is |2 end_us scale - 2 end 1,000,000| over 2
     * nominal 1,000,000 + scale, where end_us is the last segment's out start plus duration; the
     * nominal of a constant video is its denominator, and its scale the numerator */
    ST_END_NOT_NEAR = 25,
    /* over 16,777,216 bytes or timestamps are lent */
    ST_TOO_LONG = 30,
    /* missing: the boxes end without the one that is looked for, no size is whole and fits, or no
     * frame times can be had; boxes end where fewer than 8 bytes are left; the size is that of
     * st_box_size */
    ST_MISSING = 31,
    /* too little room is lent; of st_cut, st_cuts, st_join and st_merge that is 52 */
    ST_NO_ROOM = 32,
    /* a start, a span or an end is outside 64 bits */
    ST_OUTSIDE = 33,
    /* the timestamps fall; equal neighbours don't */
    ST_FALLING = 34,
    /* the recording has no frame times: no frames, or a nominal interval of 0 */
    ST_NO_RECORDING_TIMES = 35,
    /* broken: before what is looked for stands a broken box header, at the index; its size isn't
     * whole or doesn't fit, or, of st_find_box with text_types, its type has a byte outside 20 to
     * 7E hex */
    ST_BROKEN = 36,
    /* the file has no MTRM box: no moov, no udta in it, or none in that */
    ST_NO_TABLE = 40,
    /* the file has more than one MTRM box */
    ST_SEVERAL_TABLES = 41,
    /* a search range lies outside the bytes, or starts past its end, or an offset lies past the
     * bytes */
    ST_BAD_SEARCH = 42,
    /* a cut's range has no frames, or ends past the map; of many cuts also a range without its end */
    ST_BAD_RANGE = 50,
    /* a map's rows aren't well formed, slice lengths disagree, or there are no rows */
    ST_BAD_ROWS = 51,
    /* a map has, or would have, over 1,024 rows, or too little room is lent for rows; all cuts of
     * one call together may have more */
    ST_ROWS_DONT_FIT = 52,
    /* the frames of both maps together pass 2^64 - 1 */
    ST_JOIN_WRAPS = 53,
    /* a frame lies past the map */
    ST_PAST_MAP = 54,
    /* the table's text has over 1,048,576 bytes */
    ST_TEXT_TOO_LONG = 60,
    /* the table's text isn't JSON, or over 32 lists and objects stand one in another; it breaks RFC
     * 8259's grammar, a string holds half a surrogate pair, or bytes are no UTF-8 */
    ST_NOT_JSON = 61,
    /* an object in the table's text has a name twice; at any depth, in members that are skipped
     * too, escapes resolved */
    ST_REPEATED_NAME = 62,
    /* the table's version isn't 1; or the text's value is no object */
    ST_OTHER_VERSION = 63,
    /* a member of the table's text is missing or has another type; what follows the Rust's
     * `SegmentTable::parse` */
    ST_BAD_MEMBER = 64
};

/* ---- Times: the UTC rule, and ticks in microseconds. */

/* Whether bytes are a creation time by the UTC rule: 20 bytes, YYYY-MM-DDTHH:MM:SSZ.
 * Lent: the bytes. Writes nothing, refuses nothing.
 * A null pointer only with length 0. */
bool st_is_utc_second(const uint8_t *bytes, size_t bytes_len);

/* Ticks of a scale in microseconds, to the nearest whole number; halves go away from zero.
 * Lent: nothing. Writes us, index. Refuses: 20, 23. */
uint64_t st_ticks_to_us(int64_t ticks, uint64_t scale, int64_t *us, uint64_t *index);

/* ---- Maps: cut, many cuts, join, merge, the origin of a frame, and those of a list of frames. */

/* Where a frame comes from (RULES 10.2). */
typedef struct st_origin_record {
    /* The source's number. */
    uint64_t source;
    /* The frame there. */
    uint64_t frame;
    /* Whether it has a shift: 1 or 0. */
    uint64_t flag;
    /* The shift, in ticks of the source's clock, 0 where there is none. */
    int64_t shift;
} st_origin_record;

/* The frames start..end of a map as a map: each row's overlap, counted from start. Lent: a map, and
 * room for the rows. Writes the rows, rows (how many), index. Refuses: 51, 52, 50, 52.
 * A null pointer only with length 0; what is written overlaps nothing else, or memory may be corrupted. */
uint64_t st_cut(const uint64_t *words, size_t words_len, const int64_t *shifts, size_t shifts_len,
                uint64_t start, uint64_t end, uint64_t *out_words, size_t out_words_len, int64_t *out_shifts,
                size_t out_shifts_len, uint64_t *rows, uint64_t *index);

/* Cuts of several ranges of a map, which is tested once: of each range the rows that st_cut writes,
 * one cut after the other. Lent: a map; ranges, two words each, start and end, or none; room for
 * the rows of all cuts, and for a count of each. Writes the rows, counts (how many each cut has),
 * rows (how many in all, which may be over 1,024), index. Refuses: 51, 52, 50, 52.
 * A null pointer only with length 0; what is written overlaps nothing else, or memory may be corrupted. */
uint64_t st_cuts(const uint64_t *words, size_t words_len, const int64_t *shifts, size_t shifts_len,
                 const uint64_t *ranges, size_t ranges_len, uint64_t *out_words, size_t out_words_len,
                 int64_t *out_shifts, size_t out_shifts_len, uint64_t *counts, size_t counts_len,
                 uint64_t *rows, uint64_t *index);

/* Two maps as one, the second after the first.
 * Lent: two maps, and room for the rows. Writes the rows, rows (how many), index. Refuses: 51 (of
 * the first map, then of the second), 52, 53, 52.
 * A null pointer only with length 0; what is written overlaps nothing else, or memory may be corrupted. */
uint64_t st_join(const uint64_t *words, size_t words_len, const int64_t *shifts, size_t shifts_len,
                 const uint64_t *second_words, size_t second_words_len, const int64_t *second_shifts,
                 size_t second_shifts_len, uint64_t *out_words, size_t out_words_len, int64_t *out_shifts,
                 size_t out_shifts_len, uint64_t *rows, uint64_t *index);

/* A map with one row of neighbours that continue: the same source, frames that run on, flag and
 * shift equal. Lent: a map, and room for the rows. Writes the rows, rows (how many), index.
 * Refuses: 51, 52, 52.
 * A null pointer only with length 0; what is written overlaps nothing else, or memory may be corrupted. */
uint64_t st_merge(const uint64_t *words, size_t words_len, const int64_t *shifts, size_t shifts_len,
                  uint64_t *out_words, size_t out_words_len, int64_t *out_shifts, size_t out_shifts_len,
                  uint64_t *rows, uint64_t *index);

/* Where a frame comes from: its source, its frame there, the shift's flag (1 present, 0 absent) and
 * the shift. Lent: a map. Writes source, source_frame, flag, shift, index. Refuses: 51, 52, 54.
 * A null pointer only with length 0. */
uint64_t st_origin(const uint64_t *words, size_t words_len, const int64_t *shifts, size_t shifts_len,
                   uint64_t frame, uint64_t *source, uint64_t *source_frame, uint64_t *flag, int64_t *shift,
                   uint64_t *index);

/* Where each frame of a list comes from, in any order: what st_origin answers of it, as one struct a
 * frame. The map is tested once, also for an empty list. Lent: a map, the frames, and room for one
 * origin a frame. Writes out_origins, written (how many), index. Refuses: 51, 52, 54, 32.
 * A null pointer only with length 0; what is written overlaps nothing else, or memory may be corrupted. */
uint64_t st_origins(const uint64_t *words, size_t words_len, const int64_t *shifts, size_t shifts_len,
                    const uint64_t *frames, size_t frames_len, st_origin_record *out_origins,
                    size_t out_origins_len, uint64_t *written, uint64_t *index);

/* ---- Judging: a table against the video of its file, and against a MotionCam recording. */

/* Judges a table where its file has no video: it is always refused.
 * Lent: a table. Writes index. Refuses: 1 to 17, 21.
 * A null pointer only with length 0. */
uint64_t st_validate_no_video(const uint64_t *sources, size_t sources_len, const uint64_t *segments,
                              size_t segments_len, const int64_t *stamps, size_t stamps_len, bool log,
                              const uint8_t *text, size_t text_len, uint64_t *index);

/* Judges a table by a video of video_frames frames at numerator / denominator a second: its frame
 * total. Lent: a table. Writes frames, index. Refuses: 1 to 17, 20, 22, 23 with 24, 25.
 * A null pointer only with length 0. */
uint64_t st_validate_constant(const uint64_t *sources, size_t sources_len, const uint64_t *segments,
                              size_t segments_len, const int64_t *stamps, size_t stamps_len, bool log,
                              const uint8_t *text, size_t text_len, uint64_t video_frames, uint64_t numerator,
                              uint64_t denominator, uint64_t *frames, uint64_t *index);

/* Judges a table by a video's frame times, in ticks of scale a second: its frame total. The last
 * frame ends at end. Lent: a table, the starts. Writes frames, index. Refuses: 1 to 17, 20, 22, 23
 * with 24, 25.
 * A null pointer only with length 0. */
uint64_t st_validate_times(const uint64_t *sources, size_t sources_len, const uint64_t *segments,
                           size_t segments_len, const int64_t *stamps, size_t stamps_len, bool log,
                           const uint8_t *text, size_t text_len, uint64_t scale, const int64_t *starts,
                           size_t starts_len, int64_t end, int64_t nominal, uint64_t *frames,
                           uint64_t *index);

/* Judges a table by the timestamps of a MotionCam recording's frames, in nanoseconds: its frame
 * total. One timestamp is judged as one frame at the rate of segment 0's source.
 * Lent: a table, the timestamps, two working slices as long as the timestamps or longer (of one
 * timestamp, of any length). Writes both working slices (all 0), frames, index. Refuses: 1 to 17,
 * 30, 35, 34, 33, 32, 35, 33, 20, 22, 23 with 24, 25.
 * A null pointer only with length 0; what is written overlaps nothing else, or memory may be corrupted. */
uint64_t st_check_mcraw(const uint64_t *sources, size_t sources_len, const uint64_t *segments,
                        size_t segments_len, const int64_t *stamps, size_t stamps_len, bool log,
                        const uint8_t *text, size_t text_len, const int64_t *timestamps,
                        size_t timestamps_len, int64_t *first_work, size_t first_work_len,
                        int64_t *second_work, size_t second_work_len, uint64_t *frames, uint64_t *index);

/* ---- Lists of records: the lookup over a table whose segments are lent as a list of structs. */

/* A segment as one record, with its times in microseconds: the Rust's TrimSegment. */
typedef struct st_trim_segment {
    /* The source's number. */
    uint64_t source;
    /* Its first frame in the source. */
    uint64_t src_first_frame;
    /* How many frames it has. */
    uint64_t frame_count;
    /* Its first frame in the output. */
    uint64_t out_first_frame;
    /* Where it starts in the source. */
    int64_t src_start_us;
    /* Where it starts in the output. */
    int64_t out_start_us;
    /* How long it is. */
    int64_t duration_us;
    /* Where its capture starts in the source. */
    int64_t src_capture_start_us;
    /* Where its capture starts in the output. */
    int64_t out_capture_start_us;
    /* How long its capture is. */
    int64_t capture_duration_us;
    /* Whether it has a shift. */
    bool shift_present;
    /* The shift, ignored where there is none. */
    int64_t clock_shift;
} st_trim_segment;

/* The segment of a frame, over a list of records instead of words; the answer is
 * st_segment_of_frame's. Lent: the sources' words, the text, the records. Writes segment, index.
 * Refuses: 1 to 17.
 * A null pointer only with length 0. */
uint64_t st_segment_of_frame_records(const uint64_t *sources, size_t sources_len, const uint8_t *text,
                                     size_t text_len, const st_trim_segment *records, size_t records_len,
                                     bool log, uint64_t frame, uint64_t *segment, uint64_t *index);

/* ---- Frame times: of a movie's video track, and of a MotionCam recording's timestamps. */

/* The frame times of a MotionCam recording, of its frames' timestamps in nanoseconds: how many,
 * their scale (1,000,000,000), the nominal interval and the end; the starts count from the first
 * timestamp. Lent: the timestamps, room for the starts, a working slice; both as long as the
 * timestamps or longer. Writes starts, work (all 0), frames, scale, nominal, end, index. Refuses:
 * 30, 31, 34, 33, 32, 31, 33.
 * A null pointer only with length 0; what is written overlaps nothing else, or memory may be corrupted. */
uint64_t st_mcraw_times(const int64_t *timestamps, size_t timestamps_len, int64_t *starts, size_t starts_len,
                        int64_t *work, size_t work_len, uint64_t *frames, uint64_t *scale, int64_t *nominal,
                        int64_t *end, uint64_t *index);

/* The frame times of a moov's first video track: how many, their timescale, the nominal interval
 * and the end; the starts in presentation order. The mvhd and that track have to be found in moov,
 * and in the track mdia, mdhd, minf, stbl and stts: where one isn't, it is 31, or 36 with the
 * offset in moov of the broken header that hides it. A track that is broken before its hdlr, or at
 * it, isn't seen to be of video, and is passed over; where there is no other video track, the
 * answer goes by how the boxes of moov itself end. Where a broken header hides ctts, edts or elst,
 * that counts as absent. With standard the composition offsets of a ctts of version 0 are unsigned,
 * as ISO/IEC 14496-12 has them, and of any other version signed; without it they are signed in
 * every version, as in the Rust. Without it is also how to read a QuickTime file that has negative
 * offsets in version 0, as Apple describes them as signed. Where no offset of version 0 has its top
 * bit set, both answer the same.
 * Lent: the payload of a moov box (where a file has none, st_find_box says why, with an offset in
 * the file), room for the starts, two working slices as long. As many elements as the track has
 * frames are enough for each; it has no more than moov has bytes, else it is 31. Writes starts,
 * both working slices (all 0), frames, scale, nominal, end, index. Refuses: 30, 31 or 36, 32, 31,
 * 33.
 * A null pointer only with length 0; what is written overlaps nothing else, or memory may be corrupted. */
uint64_t st_video_frame_times_of_moov(const uint8_t *moov, size_t moov_len, bool standard, int64_t *starts,
                                      size_t starts_len, int64_t *first_work, size_t first_work_len,
                                      int64_t *second_work, size_t second_work_len, uint64_t *frames,
                                      uint64_t *scale, int64_t *nominal, int64_t *end, uint64_t *index);

/* ---- Tables: the check, both lookups and those of a list of frames, whether a segment continues the one before, the
 * rows of its map. */

/* Checks a table: its frame total.
 * Lent: a table. Writes frames, index. Refuses: 1 to 17.
 * A null pointer only with length 0. */
uint64_t st_check(const uint64_t *sources, size_t sources_len, const uint64_t *segments, size_t segments_len,
                  const int64_t *stamps, size_t stamps_len, bool log, const uint8_t *text, size_t text_len,
                  uint64_t *frames, uint64_t *index);

/* The segment of a frame: the number of segments that end at or before it, at most the last index.
 * Lent: a table. Writes segment, index. Refuses: 1 to 17.
 * A null pointer only with length 0. */
uint64_t st_segment_of_frame(const uint64_t *sources, size_t sources_len, const uint64_t *segments,
                             size_t segments_len, const int64_t *stamps, size_t stamps_len, bool log,
                             const uint8_t *text, size_t text_len, uint64_t frame, uint64_t *segment,
                             uint64_t *index);

/* The segment of each frame of a list, in any order: what st_segment_of_frame answers of it. The
 * table is checked once, also for an empty list. The frames and out_segments may not be one array.
 * Lent: a table, the frames, and room for one index a frame. Writes out_segments, written (how
 * many), index. Refuses: 1 to 17, 32.
 * A null pointer only with length 0; what is written overlaps nothing else, or memory may be corrupted. */
uint64_t st_segments_of_frames(const uint64_t *sources, size_t sources_len, const uint64_t *segments,
                               size_t segments_len, const int64_t *stamps, size_t stamps_len, bool log,
                               const uint8_t *text, size_t text_len, const uint64_t *frames,
                               size_t frames_len, uint64_t *out_segments, size_t out_segments_len,
                               uint64_t *written, uint64_t *index);

/* The segment of a time in microseconds: the number of segments that end at or before it, at most
 * the last index. Lent: a table. Writes segment, index. Refuses: 1 to 17.
 * A null pointer only with length 0. */
uint64_t st_segment_of_time_us(const uint64_t *sources, size_t sources_len, const uint64_t *segments,
                               size_t segments_len, const int64_t *stamps, size_t stamps_len, bool log,
                               const uint8_t *text, size_t text_len, int64_t time, uint64_t *segment,
                               uint64_t *index);

/* Whether a segment continues the one before it: the same source, source frames that run on, equal
 * shift. Answers 1 or 0, and 0 for the first segment and for one that isn't there. Lent: a table.
 * Writes answer, index. Refuses: 1 to 17.
 * A null pointer only with length 0. */
uint64_t st_continues(const uint64_t *sources, size_t sources_len, const uint64_t *segments,
                      size_t segments_len, const int64_t *stamps, size_t stamps_len, bool log,
                      const uint8_t *text, size_t text_len, uint64_t segment, uint64_t *answer,
                      uint64_t *index);

/* The map of an accepted table: one row a segment, an absent shift as 0. Lent: a table, and room
 * for the rows. Writes the rows, rows (how many), index. Refuses: 1 to 17, 32.
 * A null pointer only with length 0; what is written overlaps nothing else, or memory may be corrupted. */
uint64_t st_rows_of_table(const uint64_t *sources, size_t sources_len, const uint64_t *segments,
                          size_t segments_len, const int64_t *stamps, size_t stamps_len, bool log,
                          const uint8_t *text, size_t text_len, uint64_t *out_words, size_t out_words_len,
                          int64_t *out_shifts, size_t out_shifts_len, uint64_t *rows, uint64_t *index);

/* ---- A table's text, JSON as RFC 8259 has it: the table that it holds, its sources' names, and any of its strings. */

/* What was read of a table's text. */
typedef struct st_table_read {
    /* How many frames the table has. */
    uint64_t frames;
    /* How many sources it has; thirteen words each are written. */
    uint64_t sources;
    /* How many segments it has; five words and seven stamps each are written. */
    uint64_t segments;
    /* How many bytes its creation times have, which are all written. */
    uint64_t dates;
    /* 1 where it names a telemetry log, else 0. */
    uint64_t log;
} st_table_read;

/* Reads a table's text: the words, stamps and creation times that all other calls are lent of a
 * table, its frame total, and whether it names a telemetry log. All of the text is tested before
 * anything is written: first that it is JSON, then that no object has a name twice, then its
 * version, then each member by its type, and then the table as st_check does, with its indices. A
 * member that no table needs may hold anything. Words of an absent thing are 0.
 * Lent: the text (of a file, what st_table_text finds); room for the sources, the segments, their
 * stamps and the creation times' bytes; a working slice of a quarter as many words as the text has
 * bytes, rounded up, and at least 3,840. 3,328 words, 2,560 words, 3,584 stamps and as many bytes as
 * the text has are enough for every table. To other calls lend what was written, not the room:
 * thirteen words a source, five words and seven stamps a segment, and the creation times as their
 * text. Writes sources, segments, stamps, dates, work (all 0), read, index. Refuses: 60,
 * 32 (the working slice), 61 to 64, 2, 32, 3 to 17.
 * A null pointer only with length 0; what is written overlaps nothing else, or memory may be corrupted. */
uint64_t st_read_table(const uint8_t *text, size_t text_len, uint64_t *sources, size_t sources_len,
                       uint64_t *segments, size_t segments_len, int64_t *stamps, size_t stamps_len,
                       uint8_t *dates, size_t dates_len, uint64_t *work, size_t work_len, st_table_read *read,
                       uint64_t *index);

/* Where the names of a table's sources stand in its text: two words a source, where the name starts
 * and how long it is, in bytes, without its quotation marks and with its escapes as they stand.
 * st_json_string, lent the start less one, resolves them. The text is tested as st_read_table tests
 * it, but not the table.
 * Lent: the text; room for two words a source; a working slice as long as that of st_read_table.
 * Writes names, work (all 0), count (how many sources), index. Refuses: 60, 32 (the working slice),
 * 61 to 64, 2, 32.
 * A null pointer only with length 0; what is written overlaps nothing else, or memory may be corrupted. */
uint64_t st_source_names(const uint8_t *text, size_t text_len, uint64_t *names, size_t names_len,
                         uint64_t *work, size_t work_len, uint64_t *count, uint64_t *index);

/* The bytes of a string that stands in a text, in UTF-8, its escapes resolved: that whose opening
 * quotation mark stands at offset `at`. Nothing before it, and nothing after its closing quotation
 * mark, is looked at. It is 61 where no whole string stands there.
 * Lent: the text; room for the bytes, which are no more than stand between the quotation marks.
 * Writes out, length (how many bytes), index. Refuses: 60, 61, 32.
 * A null pointer only with length 0; what is written overlaps nothing else, or memory may be corrupted. */
uint64_t st_json_string(const uint8_t *text, size_t text_len, uint64_t at, uint8_t *out, size_t out_len,
                        uint64_t *length, uint64_t *index);

/* ---- Boxes: sizes, the walk, the child of a type, the search in a range, the table's text. */

/* The size of the box at the start of data, and of its header, where `remaining` bytes are left of
 * what it is in. Lent: the bytes at hand. Writes size, header, index. Refuses: 30, 31.
 * A null pointer only with length 0. */
uint64_t st_box_size(const uint8_t *data, size_t data_len, uint64_t remaining, uint64_t *size,
                     uint64_t *header, uint64_t *index);

/* The box at offset `at` of payload: its type (`kind`, its four bytes, big-endian), where its
 * payload lies, and where the next box is. From 0 on, and then from each answer's `next`, all boxes
 * are met, in order, until 31: fewer than 8 bytes are left there, or 36: a broken header stands
 * there, and the index is `at`. Lent: a box's payload. Writes kind, start, length, next, index.
 * Refuses: 30, 42, 31 or 36.
 * A null pointer only with length 0. */
uint64_t st_children(const uint8_t *payload, size_t payload_len, uint64_t at, uint32_t *kind, uint64_t *start,
                     uint64_t *length, uint64_t *next, uint64_t *index);

/* Where the payload of the first child of a type lies in payload; `kind` is the type's four bytes,
 * big-endian. It is 31 where the boxes end without it, and 36 where a broken header ends them
 * before, with its offset in payload. Lent: a box's payload. Writes start, length, index. Refuses:
 * 30, 31 or 36.
 * A null pointer only with length 0. */
uint64_t st_child(const uint8_t *payload, size_t payload_len, uint32_t kind, uint64_t *start,
                  uint64_t *length, uint64_t *index);

/* Where the payload of the first box of a type among those of from..to lies in bytes. It is 31
 * where the boxes end without it, and 36 where a broken header ends them before, with its offset in
 * the whole of bytes. With text_types a type with a byte outside 20..7E hex makes a header broken.
 * Lent: the bytes. Writes start, length, index. Refuses: 30, 42, 31 or 36.
 * A null pointer only with length 0. */
uint64_t st_find_box(const uint8_t *bytes, size_t bytes_len, uint64_t from, uint64_t to, uint32_t kind,
                     bool text_types, uint64_t *start, uint64_t *length, uint64_t *index);

/* Where a file's segment table has its text: the payload of the only moov/udta/MTRM box. Where a
 * broken header hides it, it is 40 too.
 * Lent: the file's bytes. Writes start, length, index. Refuses: 30, 40, 41.
 * A null pointer only with length 0. */
uint64_t st_table_text(const uint8_t *file, size_t file_len, uint64_t *start, uint64_t *length,
                       uint64_t *index);

#ifdef __cplusplus
}
#endif

#endif
