/* Lends what a careless caller may lend (wrong lengths, no bytes behind a null pointer, the largest numbers, file bytes at
 * any address) and looks at numbers, indices, words and slices. Prints ok, or the line that fails. */
#include <inttypes.h>
#include <stdio.h>
#include <stdlib.h>
#include <string.h>
#include "movie.h"
#include "segment_table.h"

#define COUNT(a) (sizeof(a) / sizeof((a)[0]))
#define MOST UINT64_MAX
#define LENT 77 /* what every lent word holds before a call */

static int failed = 0;

#define IS(condition)                                                           \
    do {                                                                        \
        if (!(condition)) {                                                     \
            printf("test.c:%d: not so: %s\n", __LINE__, #condition);            \
            failed = 1;                                                         \
        }                                                                       \
    } while (0)

static uint64_t x, y, z, w, at; /* lent words; at is the index */
static int64_t p, q;
static uint32_t kind;

static void lend(void) {
    x = y = z = w = at = LENT;
    p = q = LENT;
    kind = LENT;
}

/* A call that refuses with a number and an index, and leaves the value words as they were. */
#define REFUSED_AT(number, index, call)                                         \
    do {                                                                        \
        lend();                                                                 \
        IS((call) == (number));                                                 \
        IS(at == (index));                                                      \
        IS(x == LENT && y == LENT && z == LENT && w == LENT);                   \
        IS(p == LENT && q == LENT && kind == LENT);                             \
    } while (0)

#define ACCEPTED(call)                                                          \
    do {                                                                        \
        lend();                                                                 \
        IS((call) == 0);                                                        \
        IS(at == 0);                                                            \
    } while (0)

static void clock_calls(void) {
    const char *good = "2024-11-17T13:12:46Z", *leap = "0000-02-29T00:00:00Z", *bad = "1900-02-29T00:00:00Z";
    IS(!st_is_utc_second(NULL, 0));
    IS(st_is_utc_second((const uint8_t *)good, 20));
    IS(!st_is_utc_second((const uint8_t *)good, 19));
    IS(!st_is_utc_second((const uint8_t *)good, 21));
    IS(st_is_utc_second((const uint8_t *)leap, 20));
    IS(!st_is_utc_second((const uint8_t *)bad, 20));

    ACCEPTED(st_ticks_to_us(1001, 30000, &p, &at));
    IS(p == 33367);
    ACCEPTED(st_ticks_to_us(-1, 2000000, &p, &at));
    IS(p == -1);
    ACCEPTED(st_ticks_to_us(INT64_MIN, 1000000, &p, &at));
    IS(p == INT64_MIN);
    REFUSED_AT(ST_NO_FRAME_TIME, 0, st_ticks_to_us(INT64_MAX, 1, &p, &at));
    REFUSED_AT(ST_NO_FRAME_TIME, 0, st_ticks_to_us(1, 0, &p, &at));
    REFUSED_AT(ST_TOO_LARGE, 0, st_ticks_to_us(1, 4294967296, &p, &at));
    REFUSED_AT(ST_TOO_LARGE, 0, st_ticks_to_us(INT64_MIN, MOST, &p, &at));
}

/* Table T of RULES 3.6: two sources of 100 and 50 frames at 25 fps, rows (A,10,30,0) and (B,5,20,30). */
static uint64_t sources[26] = {100, 25, 1, 0, 0, 0, 0, 0, 0, 0, 0, 0, 0, 50, 25, 1, 0, 0, 0, 0, 0, 0, 0, 0, 0, 0};
static uint64_t segments[10] = {0, 10, 30, 0, 0, 1, 5, 20, 30, 0};
static int64_t times[14] = {0, 0, 1200000, 0, 0, 0, 0, 0, 1200000, 800000, 0, 0, 0, 0};

#define T sources, COUNT(sources), segments, COUNT(segments), times, COUNT(times), false, NULL, 0

static uint64_t check(void) { return st_check(T, &x, &at); }

/* The check with one word set to another value for the time of the call. */
static uint64_t with(uint64_t *word, uint64_t value) {
    uint64_t before = *word, number;
    *word = value;
    number = check();
    *word = before;
    return number;
}

static uint64_t with_time(int64_t *word, int64_t value) {
    int64_t before = *word;
    uint64_t number;
    *word = value;
    number = check();
    *word = before;
    return number;
}

static void table_calls(void) {
    ACCEPTED(check());
    IS(x == 50 && at == 0);

    /* wrong lengths, no lengths */
    REFUSED_AT(ST_MALFORMED, 0, st_check(sources, 25, segments, 10, times, 14, false, NULL, 0, &x, &at));
    REFUSED_AT(ST_MALFORMED, 0, st_check(sources, 26, segments, 9, times, 14, false, NULL, 0, &x, &at));
    REFUSED_AT(ST_MALFORMED, 0, st_check(sources, 26, segments, 10, times, 13, false, NULL, 0, &x, &at));
    REFUSED_AT(ST_MALFORMED, 0, st_check(sources, 26, segments, 10, times, 7, false, NULL, 0, &x, &at));
    REFUSED_AT(ST_MALFORMED, 0, st_check(sources, 26, segments, 10, NULL, 0, false, NULL, 0, &x, &at));
    REFUSED_AT(ST_NO_SOURCES, 0, st_check(NULL, 0, NULL, 0, NULL, 0, false, NULL, 0, &x, &at));
    REFUSED_AT(ST_NO_SOURCES, 0, st_check(NULL, 0, segments, 10, times, 14, false, NULL, 0, &x, &at));
    REFUSED_AT(ST_NO_SEGMENTS, 0, st_check(sources, 26, NULL, 0, NULL, 0, false, NULL, 0, &x, &at));
    REFUSED_AT(ST_NO_CLOCK, 0, st_check(sources, 26, segments, 10, times, 14, true, NULL, 0, &x, &at));

    /* the largest numbers */
    REFUSED_AT(ST_MALFORMED, 0, with(&sources[16], MOST));
    REFUSED_AT(ST_MALFORMED, 0, with(&sources[6], MOST));
    REFUSED_AT(ST_MALFORMED, 0, with(&sources[11], MOST));
    REFUSED_AT(ST_MALFORMED, 0, with(&segments[4], MOST));
    sources[3] = 1, sources[4] = MOST, sources[5] = MOST;
    REFUSED_AT(ST_MALFORMED, 0, check());
    sources[4] = 0, sources[5] = 0;
    REFUSED_AT(ST_BAD_DATE, 0, check());
    sources[3] = 0;
    REFUSED_AT(ST_NO_SUCH_SOURCE, 1, with(&segments[5], MOST));
    REFUSED_AT(ST_FRAMES_WRAP, 0, with(&segments[2], MOST));
    REFUSED_AT(ST_FRAMES_WRAP, 1, with(&segments[6], MOST));
    REFUSED_AT(ST_FRAME_GAP, 1, with(&segments[8], 31));
    REFUSED_AT(ST_NEGATIVE_TIME, 1, with_time(&times[7], INT64_MIN));
    REFUSED_AT(ST_TOO_LATE, 0, with_time(&times[2], INT64_MAX - (times[0] = 1) + 1));
    times[0] = 0;
    REFUSED_AT(ST_TIME_GAP, 1, with_time(&times[8], INT64_MAX));
    REFUSED_AT(ST_BAD_SHIFT, 1, with(&segments[9], 1));

    ACCEPTED(st_segment_of_frame(T, 29, &x, &at));
    IS(x == 0 && at == 0);
    ACCEPTED(st_segment_of_frame(T, 30, &x, &at));
    IS(x == 1);
    ACCEPTED(st_segment_of_frame(T, MOST, &x, &at));
    IS(x == 1);
    ACCEPTED(st_segment_of_time_us(T, INT64_MIN, &x, &at));
    IS(x == 0);
    ACCEPTED(st_segment_of_time_us(T, 1200000, &x, &at));
    IS(x == 1);
    ACCEPTED(st_segment_of_time_us(T, INT64_MAX, &x, &at));
    IS(x == 1);
    ACCEPTED(st_continues(T, 1, &x, &at));
    IS(x == 0);
    ACCEPTED(st_continues(T, MOST, &x, &at));
    IS(x == 0);
    REFUSED_AT(ST_NO_SOURCES, 0, st_segment_of_frame(NULL, 0, NULL, 0, NULL, 0, false, NULL, 0, MOST, &x, &at));
    REFUSED_AT(ST_NO_SOURCES, 0, st_segment_of_time_us(NULL, 0, NULL, 0, NULL, 0, false, NULL, 0, INT64_MIN, &x, &at));
    REFUSED_AT(ST_NO_SOURCES, 0, st_continues(NULL, 0, NULL, 0, NULL, 0, false, NULL, 0, MOST, &x, &at));
}

static bool as_lent(const uint64_t *a, size_t count) {
    for (size_t k = 0; k < count; k++) if (a[k] != LENT) return false;
    return true;
}

/* The lookups of a list: of each frame what the single one answers, in any order. */
static void list_calls(void) {
    const uint64_t across[4] = {28, 29, 30, 31}, any[6] = {MOST, 0, 49, 29, 29, 30};
    uint64_t up[60], down[60], found[61];
#define OF_FRAMES(frames, count, room) st_segments_of_frames(T, frames, count, found, room, &x, &at)
    for (size_t k = 0; k < 61; k++) found[k] = LENT;
    REFUSED_AT(ST_NO_ROOM, 0, OF_FRAMES(across, 4, 3));
    REFUSED_AT(ST_NO_ROOM, 0, OF_FRAMES(across, 1, 0));
    REFUSED_AT(ST_NO_ROOM, 0, st_segments_of_frames(T, across, 4, NULL, 0, &x, &at));
    ACCEPTED(st_segments_of_frames(T, NULL, 0, NULL, 0, &x, &at));
    IS(x == 0);
    ACCEPTED(OF_FRAMES(NULL, 0, 61));
    IS(x == 0);

    /* the table is tested first */
    REFUSED_AT(ST_NO_SOURCES, 0, st_segments_of_frames(NULL, 0, NULL, 0, NULL, 0, false, NULL, 0, NULL, 0, NULL, 0, &x, &at));
    REFUSED_AT(ST_MALFORMED, 0, st_segments_of_frames(sources, 25, segments, 10, times, 14, false, NULL, 0, across, 4, found, 3, &x, &at));
    segments[8] = 31;
    REFUSED_AT(ST_FRAME_GAP, 1, st_segments_of_frames(T, NULL, 0, NULL, 0, &x, &at));
    REFUSED_AT(ST_FRAME_GAP, 1, OF_FRAMES(across, 4, 3));
    REFUSED_AT(ST_FRAME_GAP, 1, OF_FRAMES(across, 4, 61));
    segments[8] = 30;
    IS(as_lent(found, 61));

    ACCEPTED(OF_FRAMES(across, 4, 4));
    IS(x == 4 && found[0] == 0 && found[1] == 0 && found[2] == 1 && found[3] == 1 && as_lent(found + 4, 57));
    ACCEPTED(OF_FRAMES(any, 6, 61));
    IS(x == 6 && found[0] == 1 && found[1] == 0 && found[2] == 1 && found[3] == 0 && found[4] == 0 && found[5] == 1);
    IS(as_lent(found + 6, 55));
    for (uint64_t k = 0; k < 60; k++) up[k] = k, down[k] = 59 - k;
    for (int turn = 0; turn < 2; turn++) {
        const uint64_t *frames = turn ? down : up;
        ACCEPTED(OF_FRAMES(frames, 60, 61));
        IS(x == 60 && found[60] == LENT);
        for (size_t k = 0; k < 60; k++) {
            ACCEPTED(st_segment_of_frame(T, frames[k], &x, &at));
            IS(x == found[k]);
        }
    }
}

/* The lookup over records: as over words, of the same table, whatever lies between a record's fields. */
static void record_calls(void) {
    st_trim_segment r[3];
    for (int fill = 0; fill < 256; fill += 85) {
        memset(r, fill, sizeof r);
        for (size_t k = 0; k < 2; k++) {
            const uint64_t *u = segments + 5 * k;
            const int64_t *t = times + 7 * k;
            r[k].source = u[0], r[k].src_first_frame = u[1], r[k].frame_count = u[2], r[k].out_first_frame = u[3];
            r[k].src_start_us = t[0], r[k].out_start_us = t[1], r[k].duration_us = t[2], r[k].src_capture_start_us = t[3];
            r[k].out_capture_start_us = t[4], r[k].capture_duration_us = t[5], r[k].shift_present = false, r[k].clock_shift = t[6];
        }
#define RECORDS(list, count, frame) st_segment_of_frame_records(sources, 26, NULL, 0, list, count, false, frame, &x, &at)
        for (uint64_t frame = 0; frame < 60; frame++) {
            uint64_t words;
            ACCEPTED(st_segment_of_frame(T, frame, &x, &at));
            words = x;
            ACCEPTED(RECORDS(r, 2, frame));
            IS(x == words && at == 0);
        }
        ACCEPTED(RECORDS(r, 2, MOST));
        IS(x == 1);
        REFUSED_AT(ST_NO_SEGMENTS, 0, RECORDS(NULL, 0, 0));
        REFUSED_AT(ST_NO_SOURCES, 0, st_segment_of_frame_records(NULL, 0, NULL, 0, r, 2, false, MOST, &x, &at));
        REFUSED_AT(ST_MALFORMED, 0, st_segment_of_frame_records(sources, 25, NULL, 0, r, 2, false, 0, &x, &at));
        REFUSED_AT(ST_NO_CLOCK, 0, st_segment_of_frame_records(sources, 26, NULL, 0, r, 2, true, 0, &x, &at));
        r[1].shift_present = true;
        REFUSED_AT(ST_BAD_SHIFT, 1, RECORDS(r, 2, 0));
        r[1].shift_present = false, r[1].capture_duration_us = INT64_MIN;
        REFUSED_AT(ST_NEGATIVE_TIME, 1, RECORDS(r, 2, 0));
        r[1].frame_count = MOST;
        REFUSED_AT(ST_FRAMES_WRAP, 1, RECORDS(r, 2, 0));
        r[0].source = MOST;
        REFUSED_AT(ST_NO_SUCH_SOURCE, 0, RECORDS(r, 2, 0));
    }
}

/* Rows into room for three. */
static uint64_t out[15];
static int64_t moved[3];

static void fresh(void) {
    for (size_t k = 0; k < COUNT(out); k++) out[k] = LENT;
    for (size_t k = 0; k < COUNT(moved); k++) moved[k] = LENT;
}

static bool untouched(size_t rows) {
    for (size_t k = 5 * rows; k < COUNT(out); k++) if (out[k] != LENT) return false;
    for (size_t k = rows; k < COUNT(moved); k++) if (moved[k] != LENT) return false;
    return true;
}

static bool row(size_t k, uint64_t source, uint64_t first, uint64_t count, uint64_t start) {
    const uint64_t *u = out + 5 * k;
    return u[0] == source && u[1] == first && u[2] == count && u[3] == start && u[4] == 0 && moved[k] == 0;
}

static void map_calls(void) {
    const uint64_t map[10] = {0, 10, 30, 0, 0, 1, 5, 20, 30, 0}, full[5] = {0, 0, MOST, 0, 0}, one[5] = {0, 0, 1, 0, 0};
    const int64_t none[2] = {0, 0};
    uint64_t again[10];

    fresh();
    ACCEPTED(st_rows_of_table(T, out, 15, moved, 3, &x, &at));
    IS(x == 2 && row(0, 0, 10, 30, 0) && row(1, 1, 5, 20, 30) && untouched(2));
    fresh();
    REFUSED_AT(ST_NO_ROOM, 0, st_rows_of_table(T, out, 9, moved, 2, &x, &at));
    REFUSED_AT(ST_NO_ROOM, 0, st_rows_of_table(T, out, 10, moved, 1, &x, &at));
    REFUSED_AT(ST_NO_ROOM, 0, st_rows_of_table(T, NULL, 0, NULL, 0, &x, &at));
    IS(untouched(0));

    /* the first lesson: cut across the join, cut the result again */
    ACCEPTED(st_cut(map, 10, none, 2, 25, 40, out, 15, moved, 3, &x, &at));
    IS(x == 2 && row(0, 0, 35, 5, 0) && row(1, 1, 5, 10, 5) && untouched(2));
    memcpy(again, out, sizeof again);
    fresh();
    ACCEPTED(st_cut(again, 10, none, 2, 3, 8, out, 15, moved, 3, &x, &at));
    IS(x == 2 && row(0, 0, 38, 2, 0) && row(1, 1, 5, 3, 2) && untouched(2));
    memcpy(again, out, sizeof again);
    ACCEPTED(st_origin(again, 10, none, 2, 2, &x, &y, &z, &p, &at));
    IS(x == 1 && y == 5 && z == 0 && p == 0 && at == 0);

    fresh();
    REFUSED_AT(ST_BAD_RANGE, 0, st_cut(map, 10, none, 2, 40, 40, out, 15, moved, 3, &x, &at));
    REFUSED_AT(ST_BAD_RANGE, 0, st_cut(map, 10, none, 2, 0, 51, out, 15, moved, 3, &x, &at));
    REFUSED_AT(ST_BAD_RANGE, 0, st_cut(map, 10, none, 2, MOST, MOST, out, 15, moved, 3, &x, &at));
    REFUSED_AT(ST_BAD_ROWS, 0, st_cut(NULL, 0, NULL, 0, 0, MOST, out, 15, moved, 3, &x, &at));
    REFUSED_AT(ST_BAD_ROWS, 0, st_cut(map, 9, none, 2, 0, 1, out, 15, moved, 3, &x, &at));
    REFUSED_AT(ST_BAD_ROWS, 0, st_cut(map, 10, none, 1, 0, 1, out, 15, moved, 3, &x, &at));
    REFUSED_AT(ST_BAD_ROWS, 1, st_cut((const uint64_t[]){0, 10, 30, 0, 0, 1, 5, 20, 31, 0}, 10, none, 2, 0, 1, out, 15, moved, 3, &x, &at));
    REFUSED_AT(ST_BAD_ROWS, 0, st_cut((const uint64_t[]){0, MOST, MOST, 0, 0}, 5, none, 1, 0, 1, out, 15, moved, 3, &x, &at));
    REFUSED_AT(ST_ROWS_DONT_FIT, 0, st_cut(map, 10, none, 2, 0, 50, out, 9, moved, 3, &x, &at));
    REFUSED_AT(ST_ROWS_DONT_FIT, 0, st_cut(map, 10, none, 2, 0, 50, NULL, 0, NULL, 0, &x, &at));
    REFUSED_AT(ST_JOIN_WRAPS, 0, st_join(full, 5, none, 1, one, 5, none, 1, out, 15, moved, 3, &x, &at));
    REFUSED_AT(ST_BAD_ROWS, 0, st_join(one, 5, none, 1, NULL, 0, NULL, 0, out, 15, moved, 3, &x, &at));
    REFUSED_AT(ST_ROWS_DONT_FIT, 0, st_join(map, 10, none, 2, map, 10, none, 2, out, 15, moved, 3, &x, &at));
    REFUSED_AT(ST_BAD_ROWS, 0, st_merge(NULL, 0, NULL, 0, out, 15, moved, 3, &x, &at));
    REFUSED_AT(ST_ROWS_DONT_FIT, 0, st_merge(map, 10, none, 2, out, 5, moved, 1, &x, &at));
    IS(untouched(0));
    ACCEPTED(st_join(one, 5, none, 1, map, 10, none, 2, out, 15, moved, 3, &x, &at));
    IS(x == 3 && row(0, 0, 0, 1, 0) && row(1, 0, 10, 30, 1) && row(2, 1, 5, 20, 31));
    fresh();
    ACCEPTED(st_merge((const uint64_t[]){0, 0, 1, 0, 0, 0, 1, 4, 1, 0}, 10, none, 2, out, 15, moved, 3, &x, &at));
    IS(x == 1 && row(0, 0, 0, 5, 0) && untouched(1));

    ACCEPTED(st_origin(full, 5, none, 1, MOST - 1, &x, &y, &z, &p, &at));
    IS(x == 0 && y == MOST - 1);
    REFUSED_AT(ST_PAST_MAP, 0, st_origin(full, 5, none, 1, MOST, &x, &y, &z, &p, &at));
    REFUSED_AT(ST_BAD_ROWS, 0, st_origin(NULL, 0, NULL, 0, 0, &x, &y, &z, &p, &at));
}

/* The cuts of a list: of each range what the single one writes, in any order, into room for twelve rows and four numbers. */
static void cut_calls(void) {
    const uint64_t map[15] = {0, 10, 30, 0, 0, 1, 5, 20, 30, 1, 0, 90, 1, 50, 0}, full[5] = {0, 0, MOST, 0, 0};
    const uint64_t gap[15] = {0, 10, 30, 0, 0, 1, 5, 20, 31, 1, 0, 90, 1, 51, 0};
    const uint64_t across[8] = {30, 50, 25, 51, 0, 51, 29, 31}, bad[8] = {0, 51, 9, 9, 40, 25, 0, 52}, whole[6] = {0, MOST, MOST - 1, MOST, 0, 1};
    const int64_t some[3] = {0, -7, 0};
    uint64_t rows[60], counts[4], done = 0, *many = malloc(8 * 5 * 1025), *all = malloc(8 * 5 * 3072);
    int64_t ticks[12], *zeros = calloc(1025, 8), *rest = malloc(8 * 3072);
#define CUTS(ranges, count, words_room, shifts_room, counts_room) \
    st_cuts(map, 15, some, 3, ranges, count, rows, words_room, ticks, shifts_room, counts, counts_room, &x, &at)
    for (size_t k = 0; k < 60; k++) rows[k] = LENT;
    for (size_t k = 0; k < 12; k++) ticks[k] = LENT;
    for (size_t k = 0; k < 4; k++) counts[k] = LENT;

    /* room: the four cuts have nine rows */
    REFUSED_AT(ST_ROWS_DONT_FIT, 0, CUTS(across, 8, 44, 12, 4));
    REFUSED_AT(ST_ROWS_DONT_FIT, 0, CUTS(across, 8, 60, 8, 4));
    REFUSED_AT(ST_ROWS_DONT_FIT, 0, CUTS(across, 8, 60, 12, 3));
    REFUSED_AT(ST_ROWS_DONT_FIT, 0, st_cuts(map, 15, some, 3, across, 8, NULL, 0, NULL, 0, NULL, 0, &x, &at));
    /* the map is tested first, then the list's length, then its ranges */
    REFUSED_AT(ST_BAD_ROWS, 0, st_cuts(NULL, 0, NULL, 0, NULL, 0, NULL, 0, NULL, 0, NULL, 0, &x, &at));
    REFUSED_AT(ST_BAD_ROWS, 0, st_cuts(map, 14, some, 3, bad, 7, rows, 60, ticks, 12, counts, 4, &x, &at));
    REFUSED_AT(ST_BAD_ROWS, 0, st_cuts(map, 15, some, 2, bad, 8, rows, 60, ticks, 12, counts, 4, &x, &at));
    REFUSED_AT(ST_BAD_ROWS, 1, st_cuts(gap, 15, some, 3, bad, 7, rows, 60, ticks, 12, counts, 4, &x, &at));
    REFUSED_AT(ST_BAD_ROWS, 1, st_cuts(gap, 15, some, 3, NULL, 0, NULL, 0, NULL, 0, NULL, 0, &x, &at));
    REFUSED_AT(ST_BAD_RANGE, 3, CUTS(bad, 7, 60, 12, 4));
    REFUSED_AT(ST_BAD_RANGE, 0, CUTS(across, 1, 60, 12, 4));
    REFUSED_AT(ST_BAD_RANGE, 1, CUTS(bad, 8, 0, 0, 0));
    REFUSED_AT(ST_BAD_RANGE, 0, CUTS(bad + 4, 4, 60, 12, 4));
    REFUSED_AT(ST_BAD_RANGE, 0, CUTS(bad + 6, 2, 60, 12, 4));
    REFUSED_AT(ST_BAD_RANGE, 0, CUTS(((const uint64_t[]){MOST, MOST}), 2, 60, 12, 4));
    ACCEPTED(CUTS(NULL, 0, 60, 12, 4));
    IS(x == 0);
    ACCEPTED(st_cuts(map, 15, some, 3, NULL, 0, NULL, 0, NULL, 0, NULL, 0, &x, &at));
    IS(x == 0);
    IS(as_lent(rows, 60) && as_lent(counts, 4));
    for (size_t k = 0; k < 12; k++) IS(ticks[k] == LENT);

    ACCEPTED(CUTS(across, 8, 45, 9, 4));
    IS(x == 9 && as_lent(rows + 45, 15) && ticks[9] == LENT && ticks[10] == LENT && ticks[11] == LENT);
    IS(counts[0] == 1 && counts[1] == 3 && counts[2] == 3 && counts[3] == 2);
    for (size_t k = 0; k < 4; k++) {
        fresh();
        ACCEPTED(st_cut(map, 15, some, 3, across[2 * k], across[2 * k + 1], out, 15, moved, 3, &x, &at));
        IS(x == counts[k] && memcmp(rows + 5 * done, out, 40 * x) == 0 && memcmp(ticks + done, moved, 8 * x) == 0);
        done += x;
    }
    IS(done == 9);
    ACCEPTED(st_cuts(full, 5, some, 1, whole, 6, rows, 60, ticks, 12, counts, 4, &x, &at));
    IS(x == 3 && rows[2] == MOST && rows[6] == MOST - 1 && rows[7] == 1 && rows[8] == 0 && rows[11] == 0 && rows[12] == 1);
    IS(counts[0] == 1 && counts[1] == 1 && counts[2] == 1 && counts[3] == 2);

    /* as many rows as a map may have, three times over; and one row too many */
    if (many && all && zeros && rest) {
        const uint64_t thrice[6] = {0, 1024, 0, 1024, 0, 1024};
        for (uint64_t k = 0; k < 1025; k++) memcpy(many + 5 * k, (const uint64_t[]){0, 2 * k, 1, k, 0}, 40);
        ACCEPTED(st_cuts(many, 5 * 1024, zeros, 1024, thrice, 6, all, 5 * 3072, rest, 3072, counts, 3, &x, &at));
        IS(x == 3072 && counts[0] == 1024 && counts[1] == 1024 && counts[2] == 1024);
        for (size_t k = 0; k < 3; k++) IS(memcmp(all + 5 * 1024 * k, many, 40 * 1024) == 0 && memcmp(rest + 1024 * k, zeros, 8 * 1024) == 0);
        REFUSED_AT(ST_ROWS_DONT_FIT, 0, st_cuts(many, 5 * 1024, zeros, 1024, thrice, 6, all, 5 * 3072 - 1, rest, 3072, counts, 3, &x, &at));
        REFUSED_AT(ST_ROWS_DONT_FIT, 0, st_cuts(many, 5 * 1025, zeros, 1025, bad + 1, 7, all, 5 * 3072, rest, 3072, counts, 3, &x, &at));
    }
    free(many), free(all), free(zeros), free(rest);
}

/* The origins of a list: of each frame what the single call answers, in any order, into room for nine. */
static void origin_calls(void) {
    const uint64_t map[15] = {0, 10, 30, 0, 0, 1, 5, 20, 30, 1, 0, 90, 1, 50, 1}, full[5] = {0, 0, MOST, 0, 0};
    const uint64_t gap[15] = {0, 10, 30, 0, 0, 1, 5, 20, 31, 1, 0, 90, 1, 51, 1}, list[8] = {30, 29, 30, 31, 50, 0, 49, 0}, past[4] = {0, 50, 51, MOST};
    const int64_t some[3] = {0, -7, 0};
    const st_origin_record lent = {LENT, LENT, LENT, LENT};
    st_origin_record found[9];
    uint64_t *many = malloc(8 * 5 * 1025);
    int64_t *zeros = calloc(1025, 8);
#define ORIGINS(list, count, room) st_origins(map, 15, some, 3, list, count, found, room, &x, &at)
    for (size_t k = 0; k < 9; k++) found[k] = lent;

    REFUSED_AT(ST_NO_ROOM, 0, ORIGINS(list, 8, 7));
    REFUSED_AT(ST_NO_ROOM, 0, st_origins(map, 15, some, 3, list, 8, NULL, 0, &x, &at));
    /* the map is tested first, also for an empty list, then the frames, then the room */
    REFUSED_AT(ST_BAD_ROWS, 0, st_origins(NULL, 0, NULL, 0, NULL, 0, NULL, 0, &x, &at));
    REFUSED_AT(ST_BAD_ROWS, 0, st_origins(map, 14, some, 3, past, 4, found, 3, &x, &at));
    REFUSED_AT(ST_BAD_ROWS, 0, st_origins(map, 15, some, 2, past, 4, found, 3, &x, &at));
    REFUSED_AT(ST_BAD_ROWS, 1, st_origins(gap, 15, some, 3, NULL, 0, NULL, 0, &x, &at));
    REFUSED_AT(ST_BAD_ROWS, 1, st_origins(gap, 15, some, 3, past, 4, found, 3, &x, &at));
    REFUSED_AT(ST_PAST_MAP, 2, ORIGINS(past, 4, 9));
    REFUSED_AT(ST_PAST_MAP, 2, ORIGINS(past, 4, 0));
    REFUSED_AT(ST_PAST_MAP, 0, ORIGINS(past + 3, 1, 9));
    REFUSED_AT(ST_PAST_MAP, 1, st_origins(full, 5, some, 1, ((const uint64_t[]){MOST - 1, MOST}), 2, found, 9, &x, &at));
    ACCEPTED(ORIGINS(NULL, 0, 9));
    IS(x == 0);
    ACCEPTED(st_origins(map, 15, some, 3, NULL, 0, NULL, 0, &x, &at));
    IS(x == 0);
    for (size_t k = 0; k < 9; k++) IS(memcmp(&found[k], &lent, sizeof lent) == 0);

    ACCEPTED(ORIGINS(list, 8, 9));
    IS(x == 8 && memcmp(&found[8], &lent, sizeof lent) == 0);
    IS(found[4].source == 0 && found[4].frame == 90 && found[4].flag == 1 && found[4].shift == 0 && found[6].shift == -7);
    for (size_t k = 0; k < 8; k++) {
        ACCEPTED(st_origin(map, 15, some, 3, list[k], &x, &y, &z, &p, &at));
        IS(found[k].source == x && found[k].frame == y && found[k].flag == z && found[k].shift == p);
    }
    ACCEPTED(st_origins(full, 5, some, 1, ((const uint64_t[]){MOST - 1, 0}), 2, found, 2, &x, &at));
    IS(x == 2 && found[0].frame == MOST - 1 && found[1].frame == 0);

    /* as many rows as a map may have; and one row too many */
    if (many && zeros) {
        for (uint64_t k = 0; k < 1025; k++) memcpy(many + 5 * k, (const uint64_t[]){k, 2 * k, 1, k, 0}, 40);
        ACCEPTED(st_origins(many, 5 * 1024, zeros, 1024, ((const uint64_t[]){0, 1023, 1, 512}), 4, found, 9, &x, &at));
        IS(x == 4 && found[0].source == 0 && found[1].source == 1023 && found[1].frame == 2046 && found[2].source == 1 && found[3].source == 512);
        REFUSED_AT(ST_PAST_MAP, 0, st_origins(many, 5 * 1024, zeros, 1024, ((const uint64_t[]){1024}), 1, found, 9, &x, &at));
        REFUSED_AT(ST_ROWS_DONT_FIT, 0, st_origins(many, 5 * 1025, zeros, 1025, past + 3, 1, found, 0, &x, &at));
    }
    free(many), free(zeros);
}

/* Walks boxes from offset to offset, and into those that hold boxes: how many there are. */
static int walked(const uint8_t *payload, size_t length) {
    const char *inner[] = {"trak", "mdia", "minf", "stbl"};
    uint64_t from = 0, start, size, next = 0;
    int count = 0;
    while (at = LENT, st_children(payload, length, from, &kind, &start, &size, &next, &at) == 0) {
        const uint32_t found = kind;
        IS(at == 0 && from + 8 <= start && start + size == next && next <= length);
        for (size_t k = 0; k < COUNT(inner); k++) if (found == code(inner[k])) count += walked(payload + start, size);
        from = next;
        count++;
    }
    IS(at == 0 && from == length);
    return count;
}

static void box_calls(void) {
    uint8_t room[96], *large = calloc(16777217, 1);
#define FOUND &kind, &x, &y, &z, &at
    for (size_t shift = 0; shift < 8; shift++) {
        uint8_t *file = room + shift; /* free, then moov / udta / MTRM of five bytes; 8 addresses */
        box(file, "free", 3);
        memcpy(box(box(box(file + 11, "moov", 21), "udta", 13), "MTRM", 5), "table", 5);
        ACCEPTED(st_table_text(file, 40, &x, &y, &at));
        IS(x == 35 && y == 5 && memcmp(file + x, "table", 5) == 0);
        ACCEPTED(st_find_box(file, 40, 0, 40, code("moov"), true, &x, &y, &at));
        IS(x == 19 && y == ST_NO_VIDEO);
        ACCEPTED(st_children(file, 40, 0, FOUND));
        IS(kind == code("free") && x == 8 && y == 3 && z == 11);
        ACCEPTED(st_children(file, 40, 11, FOUND));
        IS(kind == code("moov") && x == 19 && y == ST_NO_VIDEO && z == 40);
        REFUSED_AT(ST_MISSING, 0, st_children(file, 40, 40, FOUND));
        REFUSED_AT(ST_MISSING, 0, st_children(file, 40, 33, FOUND));
        REFUSED_AT(ST_BROKEN, 32, st_children(file, 40, 32, FOUND));
        REFUSED_AT(ST_BROKEN, 11, st_children(file, 39, 11, FOUND));
        REFUSED_AT(ST_BAD_SEARCH, 0, st_children(file, 40, 41, FOUND));
        REFUSED_AT(ST_BAD_SEARCH, 0, st_children(file, 40, MOST, FOUND));
        ACCEPTED(st_child(file, 40, code("free"), &x, &y, &at));
        IS(x == 8 && y == 3);
        ACCEPTED(st_box_size(file + 11, 29, 29, &x, &y, &at));
        IS(x == 29 && y == 8);
        REFUSED_AT(ST_MISSING, 0, st_box_size(file + 11, 29, 28, &x, &y, &at));
        REFUSED_AT(ST_MISSING, 0, st_child(file, 40, code("udta"), &x, &y, &at));
        REFUSED_AT(ST_NO_TABLE, 0, st_table_text(file, 39, &x, &y, &at));
        REFUSED_AT(ST_BAD_SEARCH, 0, st_find_box(file, 40, 0, 41, code("moov"), true, &x, &y, &at));
        REFUSED_AT(ST_BAD_SEARCH, 0, st_find_box(file, 40, 40, 39, code("moov"), true, &x, &y, &at));
        REFUSED_AT(ST_BAD_SEARCH, 0, st_find_box(file, 40, MOST, MOST, code("moov"), false, &x, &y, &at));
        REFUSED_AT(ST_BAD_SEARCH, 0, st_find_box(file, 40, 0, MOST, MOST >> 32, false, &x, &y, &at));
        box(file, "moov", 24);
        box(file + 8, "udta", 16);
        box(file + 16, "MTRM", 0);
        box(file + 24, "MTRM", 0);
        REFUSED_AT(ST_SEVERAL_TABLES, 0, st_table_text(file, 32, &x, &y, &at));
    }
    REFUSED_AT(ST_MISSING, 0, st_box_size(NULL, 0, MOST, &x, &y, &at));
    REFUSED_AT(ST_MISSING, 0, st_children(NULL, 0, 0, FOUND));
    REFUSED_AT(ST_BAD_SEARCH, 0, st_children(NULL, 0, 1, FOUND));
    REFUSED_AT(ST_BAD_SEARCH, 0, st_children(NULL, 0, MOST, FOUND));
    REFUSED_AT(ST_MISSING, 0, st_child(NULL, 0, 0, &x, &y, &at));
    REFUSED_AT(ST_MISSING, 0, st_find_box(NULL, 0, 0, 0, 0, true, &x, &y, &at));
    REFUSED_AT(ST_NO_TABLE, 0, st_table_text(NULL, 0, &x, &y, &at));
    if (large) {
        REFUSED_AT(ST_TOO_LONG, 0, st_box_size(large, 16777217, MOST, &x, &y, &at));
        REFUSED_AT(ST_TOO_LONG, 0, st_children(large, 16777217, 0, FOUND));
        REFUSED_AT(ST_TOO_LONG, 0, st_children(large, 16777217, MOST, FOUND));
        ACCEPTED(st_children(large, 16777216, 0, FOUND)); /* size 0: to the end */
        IS(kind == 0 && x == 8 && y == 16777208 && z == 16777216);
        REFUSED_AT(ST_TOO_LONG, 0, st_child(large, 16777217, 0, &x, &y, &at));
        REFUSED_AT(ST_TOO_LONG, 0, st_find_box(large, 16777217, 0, 0, 0, true, &x, &y, &at));
        REFUSED_AT(ST_TOO_LONG, 0, st_table_text(large, 16777217, &x, &y, &at));
    }
    free(large);
}

/* Each walk over boxes that meets no moov before the broken header at an offset: 36 with that offset, of the whole and of the range
 * from there on; the search for a table gives 40. */
#define BROKEN(file, length, offset)                                                                               \
    do {                                                                                                           \
        REFUSED_AT(ST_BROKEN, offset, st_children(file, length, offset, FOUND));                                   \
        REFUSED_AT(ST_BROKEN, offset, st_child(file, length, code("moov"), &x, &y, &at));                          \
        REFUSED_AT(ST_BROKEN, offset, st_find_box(file, length, 0, length, code("moov"), false, &x, &y, &at));     \
        REFUSED_AT(ST_BROKEN, offset, st_find_box(file, length, offset, length, code("moov"), true, &x, &y, &at)); \
        REFUSED_AT(ST_NO_TABLE, 0, st_table_text(file, length, &x, &y, &at));                                      \
    } while (0)

/* Two boxes of 8 bytes, then one whose size is broken, then a moov. */
static void broken_sizes(void) {
    const uint32_t sizes[] = {2, 7, 17, UINT32_MAX}, large_sizes[][2] = {{0, 0}, {0, 15}, {0, 25}, {1, 16}, {UINT32_MAX, UINT32_MAX}};
    uint8_t file[40];
    box(box(file, "free", 0), "free", 0);
    for (size_t left = 0; left < 8; left++) {
        REFUSED_AT(ST_MISSING, 0, st_children(file, 8 + left, 8, FOUND));
        REFUSED_AT(ST_MISSING, 0, st_child(file, 8 + left, code("moov"), &x, &y, &at));
        REFUSED_AT(ST_MISSING, 0, st_find_box(file, 16, 0, 8 + left, code("moov"), true, &x, &y, &at));
    }
    box(box(file + 16, "torn", 0), "moov", 0);
    ACCEPTED(st_child(file, 32, code("moov"), &x, &y, &at));
    IS(x == 32 && y == 0);
    for (size_t k = 0; k < COUNT(sizes); k++) {
        put(file + 16, sizes[k]);
        BROKEN(file, 32, 16);
    }
    /* the offset is that in the whole, wherever the range starts and ends */
    REFUSED_AT(ST_BROKEN, 16, st_find_box(file, 32, 8, 32, code("moov"), false, &x, &y, &at));
    REFUSED_AT(ST_BROKEN, 16, st_find_box(file, 32, 8, 24, code("moov"), true, &x, &y, &at));
    REFUSED_AT(ST_MISSING, 0, st_find_box(file, 32, 8, 23, code("moov"), true, &x, &y, &at));
    ACCEPTED(st_find_box(file, 32, 24, 32, code("moov"), true, &x, &y, &at));
    IS(x == 32 && y == 0);

    /* sizes of 64 bits: cut off, less than their header, past the end */
    box(put(put(put(put(file + 16, 1), code("long")), 0), 16), "moov", 0);
    ACCEPTED(st_child(file, 40, code("moov"), &x, &y, &at));
    IS(x == 40 && y == 0);
    REFUSED_AT(ST_MISSING, 0, st_child(file, 32, code("moov"), &x, &y, &at));
    for (size_t length = 24; length < 32; length++) BROKEN(file, length, 16);
    for (size_t k = 0; k < COUNT(large_sizes); k++) {
        put(put(file + 24, large_sizes[k][0]), large_sizes[k][1]);
        BROKEN(file, 40, 16);
    }
}

/* A type outside 20..7E hex breaks a header where types are text, and nowhere else. */
static void broken_types(void) {
    const uint8_t text[] = {0x20, 0x7e}, past[] = {0, 0x1f, 0x7f, 0xff};
    uint8_t file[32];
    box(box(box(box(file, "free", 0), "free", 0), "text", 0), "moov", 0);
    for (size_t k = 20; k < 24; k++) {
        for (size_t e = 0; e < COUNT(text); e++) {
            file[k] = text[e];
            ACCEPTED(st_find_box(file, 32, 8, 32, code("moov"), true, &x, &y, &at));
            IS(x == 32 && y == 0);
        }
        for (size_t e = 0; e < COUNT(past); e++) {
            file[k] = past[e];
            REFUSED_AT(ST_BROKEN, 16, st_find_box(file, 32, 8, 32, code("moov"), true, &x, &y, &at));
            REFUSED_AT(ST_BROKEN, 16, st_find_box(file, 32, 8, 32, code((const char *)file + 20), true, &x, &y, &at));
            ACCEPTED(st_find_box(file, 32, 8, 32, code("moov"), false, &x, &y, &at));
            IS(x == 32 && y == 0);
        }
        file[k] = 't';
    }
}

/* A table behind a broken header, in the udta, in the moov and before it: 40 stays. */
static void broken_tables(void) {
    const char *kinds[][4] = {{"moov", "udta", "torn", "MTRM"}, {"moov", "torn", "udta", "MTRM"}, {"torn", "moov", "udta", "MTRM"}};
    for (size_t k = 0; k < COUNT(kinds); k++) {
        uint8_t file[32], *to = file, *torn = NULL;
        for (uint32_t n = 0; n < 4; n++) { /* each holds all that follow but the torn one, which is empty */
            const bool empty = strcmp(kinds[k][n], "torn") == 0;
            if (empty) torn = to;
            to = box(to, kinds[k][n], empty ? 0 : 24 - 8 * n);
        }
        ACCEPTED(st_table_text(file, 32, &x, &y, &at));
        IS(x == 32 && y == 0);
        put(torn, 7);
        REFUSED_AT(ST_NO_TABLE, 0, st_table_text(file, 32, &x, &y, &at));
    }
}

/* How walks stop: at their end, or at a broken header. */
static void stop_calls(void) {
    uint8_t *large = calloc(16777216, 1);
    broken_sizes();
    broken_types();
    broken_tables();
    if (large) {
        box(box(large, "free", 16777200) + 16777200, "torn", 1);
        BROKEN(large, 16777216, 16777208);
    }
    free(large);
}

static void recording_calls(void) {
    const int64_t stamps[3] = {1000, 1010, 1025}, falling[3] = {5, 6, 4}, wide[2] = {INT64_MIN, INT64_MAX};
    int64_t starts[4] = {9, 9, 9, 9}, work[3] = {9, 9, 9}, *many = calloc(16777217, 8);
#define WORDS &x, &y, &p, &q, &at
    ACCEPTED(st_mcraw_times(stamps, 3, starts, 4, work, 3, WORDS));
    IS(x == 3 && y == 1000000000 && p == 10 && q == 35 && at == 0);
    IS(starts[0] == 0 && starts[1] == 10 && starts[2] == 25 && starts[3] == 9);
    IS(work[0] == 0 && work[1] == 0 && work[2] == 0);
    work[0] = work[1] = work[2] = 9;
    REFUSED_AT(ST_NO_ROOM, 0, st_mcraw_times(stamps, 3, starts, 2, work, 3, WORDS));
    IS(starts[0] == 0 && starts[1] == 10 && work[0] == 0 && work[1] == 0 && work[2] == 0);
    REFUSED_AT(ST_NO_ROOM, 0, st_mcraw_times(stamps, 3, starts, 4, NULL, 0, WORDS));
    REFUSED_AT(ST_FALLING, 2, st_mcraw_times(falling, 3, starts, 4, work, 3, WORDS));
    REFUSED_AT(ST_OUTSIDE, 0, st_mcraw_times(wide, 2, starts, 4, work, 3, WORDS));
    REFUSED_AT(ST_MISSING, 0, st_mcraw_times(stamps, 1, starts, 4, work, 3, WORDS));
    REFUSED_AT(ST_MISSING, 0, st_mcraw_times(NULL, 0, NULL, 0, NULL, 0, WORDS));
    if (many) REFUSED_AT(ST_TOO_LONG, 0, st_mcraw_times(many, 16777217, starts, 4, work, 3, WORDS));
    free(many);
}

static bool zero(const int64_t *a, size_t count) {
    for (size_t k = 0; k < count; k++) if (a[k]) return false;
    return true;
}

static void movie_calls(bool standard) {
    uint8_t room[256];
    int64_t starts[4] = {9, 9, 9, 9}, a[3] = {9, 9, 9}, b[3] = {9, 9, 9};
#define TIMES &x, &y, &p, &q, &at
    for (size_t shift = 0; shift < 8; shift++) { /* file bytes at 8 addresses */
        uint8_t *moov = room + shift;
        size_t n = make_moov(moov, 25, (const uint32_t[]){2, 1, 1, 2}, 4);
        IS(walked(moov, n) == 8); /* mvhd, trak, mdia, hdlr, mdhd, minf, stbl, stts */
        a[0] = b[2] = starts[3] = 9;
        ACCEPTED(st_video_frame_times_of_moov(moov, n, standard, starts, 4, a, 3, b, 3, TIMES));
        IS(x == 3 && y == 25 && p == 1 && q == 4 && zero(a, 3) && zero(b, 3));
        IS(starts[0] == 0 && starts[1] == 1 && starts[2] == 2 && starts[3] == 9);
        a[0] = b[0] = starts[0] = 9;
        REFUSED_AT(ST_NO_ROOM, 0, st_video_frame_times_of_moov(moov, n, standard, starts, 2, a, 3, b, 3, TIMES));
        REFUSED_AT(ST_NO_ROOM, 0, st_video_frame_times_of_moov(moov, n, standard, starts, 4, a, 3, b, 2, TIMES));
        REFUSED_AT(ST_NO_ROOM, 0, st_video_frame_times_of_moov(moov, n, standard, NULL, 0, NULL, 0, NULL, 0, TIMES));
        IS(starts[0] == 9 && zero(a, 3) && zero(b, 3));
        for (size_t less = 0; less < n; less++) { /* every shorter moov: of its mvhd, or of its trak, a header is left or less */
            const size_t last = less < 24 ? 0 : 24, header = last + 8 <= less;
            REFUSED_AT(header ? ST_BROKEN : ST_MISSING, header * last, st_video_frame_times_of_moov(moov, less, standard, starts, 4, a, 3, b, 3, TIMES));
        }
        n = make_moov(moov, 25, (const uint32_t[]){1, UINT32_MAX, UINT32_MAX, UINT32_MAX}, 4);
        REFUSED_AT(ST_MISSING, 0, st_video_frame_times_of_moov(moov, n, standard, starts, 4, a, 3, b, 3, TIMES));
        n = make_moov(moov, UINT32_MAX, (const uint32_t[]){2, UINT32_MAX}, 2);
        ACCEPTED(st_video_frame_times_of_moov(moov, n, standard, starts, 4, a, 3, b, 3, TIMES));
        IS(x == 2 && y == UINT32_MAX && p == UINT32_MAX && q == 2 * (int64_t)UINT32_MAX && starts[1] == UINT32_MAX);
    }
    REFUSED_AT(ST_MISSING, 0, st_video_frame_times_of_moov(NULL, 0, standard, NULL, 0, NULL, 0, NULL, 0, TIMES));
}

/* Where the box of a type starts in a movie. */
static size_t where(const uint8_t *moov, const char *type) {
    size_t k = 0;
    while (memcmp(moov + k + 4, type, 4)) k++;
    return k;
}

/* Adds an edit that starts at media time 10 to the track, which is the movie's last box; how long the movie is then. */
static size_t edited(uint8_t *moov, size_t n) {
    uint8_t *trak = moov + where(moov, "trak");
    uint8_t *end = full(box(moov + n, "edts", 28), "elst", (const uint32_t[]){1, 0, 10, 65536}, 4);
    put(trak, (uint32_t)(end - trak));
    return (size_t)(end - moov);
}

/* Puts a header of size 7 at an offset where a box starts, and so into the boxes around it; how long the movie is then. */
static size_t torn_at(uint8_t *moov, size_t n, size_t place) {
    for (size_t from = 0, size; from < place; from += size) {
        size = code((const char *)moov + from);
        if (place < from + size) {
            put(moov + from, (uint32_t)size + 8);
            size = 8;
        }
    }
    memmove(moov + place + 8, moov + place, n - place);
    box(moov + place, "torn", 0);
    put(moov + place, 7);
    return n + 8;
}

static uint8_t movie[320];
static int64_t shown[4], spare[6];

/* The movie: three frames of 10 ticks, composed at 10, 40 and 20, and the edit; how long it is. */
static size_t make_edited(void) {
    const uint32_t stts[] = {1, 3, 10}, ctts[] = {3, 1, 10, 1, 30, 1, 0};
    return edited(movie, make_movie(movie, 25, stts, COUNT(stts), ctts, COUNT(ctts)));
}

/* The same with a broken header before the box of a type. */
static size_t make_torn(const char *type) {
    size_t n = make_edited();
    return torn_at(movie, n, where(movie, type));
}

static uint64_t times_of(bool standard, size_t n) {
    for (size_t k = 0; k < 4; k++) shown[k] = 9;
    for (size_t k = 0; k < 6; k++) spare[k] = 9;
    return st_video_frame_times_of_moov(movie, n, standard, shown, 3, spare, 3, spare + 3, 3, TIMES);
}

/* Whether so many frames start there, up to an end; a 9 is as it was lent. */
static bool shows(uint64_t frames, int64_t first, int64_t second, int64_t third, int64_t end) {
    const bool told = x == frames && y == 25 && p == 10 && q == end;
    return told && shown[0] == first && shown[1] == second && shown[2] == third && shown[3] == 9 && zero(spare, 6);
}

/* A broken header before a box that has to be there. */
static void hidden_calls(bool standard) {
    const char *needed[] = {"mvhd", "trak", "mdhd", "minf", "stbl", "stts"}, *naming[] = {"mdia", "hdlr"};
    size_t n;
    for (size_t k = 0; k < COUNT(needed); k++) {
        n = make_torn(needed[k]);
        REFUSED_AT(ST_BROKEN, where(movie, needed[k]) - 8, times_of(standard, n));
        IS(shown[0] == 9 && shown[1] == 9 && shown[2] == 9 && zero(spare, 6));
    }
    /* of a track that isn't known to be of video, how the moov itself ends counts */
    for (size_t k = 0; k < COUNT(naming); k++) {
        n = make_torn(naming[k]);
        REFUSED_AT(ST_MISSING, 0, times_of(standard, n));
        n = torn_at(movie, n, n);
        REFUSED_AT(ST_BROKEN, n - 8, times_of(standard, n));
    }
}

/* A broken header past the track changes nothing; before a box that may be absent it makes it so. */
static void shown_calls(bool standard) {
    size_t n = make_edited();
    ACCEPTED(times_of(standard, n));
    IS(shows(3, 0, 10, 30, 40));
    ACCEPTED(times_of(standard, torn_at(movie, n, n)));
    IS(shows(3, 0, 10, 30, 40));
    ACCEPTED(times_of(standard, make_torn("ctts")));
    IS(shows(2, 0, 10, 9, 20));
    ACCEPTED(times_of(standard, make_torn("edts")));
    IS(shows(3, 10, 20, 40, 50));
    ACCEPTED(times_of(standard, make_torn("elst")));
    IS(shows(3, 10, 20, 40, 50));
}

/* No video track: the moov can be read to its end, or it has a broken header there. A mvhd that isn't whole is seen first. */
static void sound_calls(bool standard) {
    size_t n = make_edited();
    memcpy(movie + where(movie, "hdlr") + 16, "soun", 4);
    for (size_t more = 0; more < 8; more++) REFUSED_AT(ST_MISSING, 0, times_of(standard, n + more));
    n = torn_at(movie, n, n);
    REFUSED_AT(ST_BROKEN, n - 8, times_of(standard, n));
    movie[8] = 1; /* a mvhd of version 1 is longer */
    REFUSED_AT(ST_MISSING, 0, times_of(standard, n));
}

/* The movie: three frames of 10 ticks, and a ctts of a version with two entries; how long it is. */
static size_t make_offsets(uint8_t version, uint32_t many, uint32_t offset, uint32_t more, uint32_t other) {
    const uint32_t stts[] = {1, 3, 10}, ctts[] = {2, many, offset, more, other};
    const size_t n = make_movie(movie, 25, stts, COUNT(stts), ctts, COUNT(ctts));
    movie[where(movie, "ctts") + 8] = version;
    return n;
}

/* Offsets of version 0 with their top bit set: unsigned by the standard, below 0 in the crate's mode. */
static void unsigned_calls(void) {
    size_t n = make_offsets(0, 3, 2400000000, 0, 0);
    REFUSED_AT(ST_MISSING, 0, times_of(false, n));
    ACCEPTED(times_of(true, n));
    IS(shows(3, 2400000000, 2400000010, 2400000020, 2400000030));
    n = edited(movie, n);
    REFUSED_AT(ST_MISSING, 0, times_of(false, n));
    ACCEPTED(times_of(true, n));
    IS(shows(3, 0, 10, 20, 30));
    n = make_offsets(0, 3, 0x80000000, 0, 0);
    REFUSED_AT(ST_MISSING, 0, times_of(false, n));
    ACCEPTED(times_of(true, n));
    IS(shows(3, 2147483648, 2147483658, 2147483668, 2147483678));
    n = make_offsets(0, 2, 0, 1, UINT32_MAX);
    ACCEPTED(times_of(false, n));
    IS(shows(3, 0, 10, 19, 29));
    ACCEPTED(times_of(true, n));
    IS(shows(3, 0, 10, 4294967315, 4294967325));
    n = make_offsets(0, 1, 0x80000000, 1, UINT32_MAX - 2); /* the third frame has none */
    ACCEPTED(times_of(false, n));
    IS(shows(2, 7, 20, 9, 30));
    ACCEPTED(times_of(true, n));
    IS(shows(3, 20, 2147483648, 4294967303, 4294967313));
}

/* Where both modes answer the same: in every other version, and where no frame's offset has its top bit set. */
static void signed_calls(bool standard) {
    const uint8_t versions[] = {1, 2, 255};
    for (size_t k = 0; k < COUNT(versions); k++) {
        REFUSED_AT(ST_MISSING, 0, times_of(standard, make_offsets(versions[k], 3, 2400000000, 0, 0)));
        REFUSED_AT(ST_MISSING, 0, times_of(standard, make_offsets(versions[k], 3, 0x80000000, 0, 0)));
        ACCEPTED(times_of(standard, make_offsets(versions[k], 2, 0, 1, UINT32_MAX)));
        IS(shows(3, 0, 10, 19, 29));
    }
    ACCEPTED(times_of(standard, make_offsets(0, 3, 0x7fffffff, 0, 0)));
    IS(shows(3, 2147483647, 2147483657, 2147483667, 2147483677));
    ACCEPTED(times_of(standard, make_offsets(0, 0, 0x80000000, 3, 5)));
    IS(shows(3, 5, 15, 25, 35));
    ACCEPTED(times_of(standard, make_offsets(0, 3, 5, 1, UINT32_MAX))); /* an entry past the frames */
    IS(shows(3, 5, 15, 25, 35));
}

static void judge_calls(void) {
    int64_t starts[50], a[50], b[50], stamps[50];
    for (int k = 0; k < 50; k++) starts[k] = k, stamps[k] = 40000000LL * k, a[k] = b[k] = 9;
    lend();
    IS(st_validate_no_video(T, &at) == ST_NO_VIDEO && at == 0);
    IS(st_validate_no_video(NULL, 0, NULL, 0, NULL, 0, false, NULL, 0, &at) == ST_NO_SOURCES && at == 0);
    ACCEPTED(st_validate_constant(T, 50, 25, 1, &x, &at));
    IS(x == 50 && at == 0);
    REFUSED_AT(ST_OTHER_FRAME_COUNT, 0, st_validate_constant(T, MOST, 25, 1, &x, &at));
    REFUSED_AT(ST_TOO_LARGE, 0, st_validate_constant(T, 50, MOST, 1, &x, &at));
    REFUSED_AT(ST_TOO_LARGE, 0, st_validate_constant(T, 50, 25, 4294967296, &x, &at));
    REFUSED_AT(ST_NO_FRAME_TIME, 0, st_validate_constant(T, 50, 0, 1, &x, &at));
    REFUSED_AT(ST_OTHER_FRAME_TIME, 1, st_validate_constant(T, 50, 4294967295, 4294967295, &x, &at));
    REFUSED_AT(ST_MALFORMED, 0, st_validate_constant(sources, 25, segments, 10, times, 14, false, NULL, 0, 50, 25, 1, &x, &at));
    ACCEPTED(st_validate_times(T, 25, starts, 50, 50, 1, &x, &at));
    IS(x == 50 && at == 0);
    REFUSED_AT(ST_OTHER_FRAME_COUNT, 0, st_validate_times(T, 25, NULL, 0, 50, 1, &x, &at));
    REFUSED_AT(ST_TOO_LARGE, 0, st_validate_times(T, MOST, starts, 50, 50, 1, &x, &at));
    REFUSED_AT(ST_END_NOT_NEAR, 0, st_validate_times(T, 25, starts, 50, INT64_MAX, 1, &x, &at));
    REFUSED_AT(ST_END_NOT_NEAR, 0, st_validate_times(T, 25, starts, 50, INT64_MIN, 1, &x, &at));
    REFUSED_AT(ST_END_NOT_NEAR, 0, st_validate_times(T, 25, starts, 50, 50, INT64_MIN, &x, &at));
    starts[30] = INT64_MAX;
    REFUSED_AT(ST_NO_FRAME_TIME, 1, st_validate_times(T, 25, starts, 50, 50, 1, &x, &at));
    ACCEPTED(st_check_mcraw(T, stamps, 50, a, 50, b, 50, &x, &at));
    IS(x == 50 && at == 0 && zero(a, 50) && zero(b, 50));
    a[49] = b[0] = 9;
    REFUSED_AT(ST_NO_ROOM, 0, st_check_mcraw(T, stamps, 50, a, 49, b, 50, &x, &at));
    IS(a[49] == 9 && zero(b, 50));
    REFUSED_AT(ST_NO_ROOM, 0, st_check_mcraw(T, stamps, 50, NULL, 0, NULL, 0, &x, &at));
    REFUSED_AT(ST_NO_RECORDING_TIMES, 0, st_check_mcraw(T, NULL, 0, NULL, 0, NULL, 0, &x, &at));
    REFUSED_AT(ST_OTHER_FRAME_COUNT, 0, st_check_mcraw(T, stamps, 1, NULL, 0, NULL, 0, &x, &at));
    REFUSED_AT(ST_FALLING, 49, (stamps[49] = INT64_MIN, st_check_mcraw(T, stamps, 50, a, 50, b, 50, &x, &at)));
    REFUSED_AT(ST_NO_SOURCES, 0, (a[0] = 9, st_check_mcraw(NULL, 0, NULL, 0, NULL, 0, false, NULL, 0, stamps, 50, a, 50, b, 50, &x, &at)));
    IS(zero(a, 50));
}

/* A table's text: two sources, the second with a creation time, a clock and an IMU's origin, and two segments. */
#define FIRST_NAME "C0538.MP4"
#define FIRST "{\"name\":\"" FIRST_NAME "\",\"size\":9,\"frames\":100,\"fps\":[25,1],\"creation_time\":null,\"clock\":null}"
#define SECOND_NAME "\\u0043\\\"\\ud83d\\ude00\\n"
#define SECOND                                                                                                          \
    "{\"name\":\"" SECOND_NAME "\",\"size\":18446744073709551615,\"frames\":50,\"fps\":[25,1],"                             \
    "\"creation_time\":\"2024-11-17T13:12:46\\u005a\",\"clock\":{\"name\":\"\",\"rate\":[1000,1],\"modulus\":8},\"zcam_imu_origin_us\":5}"
#define SEGMENT(source, first, count, out, start, length, shift)                                                        \
    "{\"source\":" #source ",\"src_first_frame\":" #first ",\"frame_count\":" #count ",\"out_first_frame\":" #out         \
    ",\"src_start_us\":0,\"out_start_us\":" #start ",\"duration_us\":" #length ",\"src_capture_start_us\":0"             \
    ",\"out_capture_start_us\":0,\"capture_duration_us\":0,\"requested\":null,\"start\":\"\",\"entry\":\"\""              \
    ",\"end\":\"\",\"clock_shift\":" #shift "}"
#define TABLE_OF(version, sources, segments) "{\"version\":" version ",\"sources\":[" sources "],\"segments\":[" segments "]}"
#define BOTH SEGMENT(0, 10, 30, 0, 0, 1200000, null) "," SEGMENT(1, 5, 20, 30, 1200000, 800000, 7)
static const char *const whole = TABLE_OF("1", FIRST "," SECOND, BOTH);

/* What is lent for it, one element more of each than it needs. */
#define WORK 3840
static uint64_t text_sources[27], text_segments[11], text_work[WORK + 1], names[5];
static int64_t text_stamps[15];
static uint8_t dates[21], bytes[9];
static st_table_read got;

static void lend_text(void) {
    for (size_t k = 0; k < COUNT(text_sources); k++) text_sources[k] = LENT;
    for (size_t k = 0; k < COUNT(text_segments); k++) text_segments[k] = LENT;
    for (size_t k = 0; k < COUNT(text_stamps); k++) text_stamps[k] = LENT;
    for (size_t k = 0; k < COUNT(text_work); k++) text_work[k] = LENT;
    for (size_t k = 0; k < COUNT(names); k++) names[k] = LENT;
    memset(dates, LENT, sizeof dates), memset(bytes, LENT, sizeof bytes);
    got = (st_table_read){LENT, LENT, LENT, LENT, LENT};
}

static bool bytes_as_lent(const uint8_t *a, size_t count) {
    for (size_t k = 0; k < count; k++) if (a[k] != LENT) return false;
    return true;
}

static bool stamps_as_lent(size_t from) {
    for (size_t k = from; k < COUNT(text_stamps); k++) if (text_stamps[k] != LENT) return false;
    return true;
}

/* The working slice is zero as far as it was lent. */
static bool work_cleared(size_t lent) {
    for (size_t k = 0; k < lent; k++) if (text_work[k]) return false;
    return as_lent(text_work + lent, COUNT(text_work) - lent);
}

static bool nothing_read(void) {
    const bool told = got.frames == LENT && got.sources == LENT && got.segments == LENT && got.dates == LENT && got.log == LENT;
    return told && as_lent(text_sources, 27) && as_lent(text_segments, 11) && stamps_as_lent(0) && bytes_as_lent(dates, 21);
}

#define READ_WITHIN(text, length, sources, segments, stamps, bytes, work)                                               \
    st_read_table((const uint8_t *)(text), length, text_sources, sources, text_segments, segments, text_stamps, stamps, \
                  dates, bytes, text_work, work, &got, &at)
#define READ(text, length) READ_WITHIN(text, length, 27, 11, 15, 21, WORK)
#define NAMES(text, length, room, work) st_source_names((const uint8_t *)(text), length, names, room, text_work, work, &x, &at)

/* A text that both calls refuse alike, and one that is refused as a table, but whose names can be had. */
#define TEXT_REFUSED(number, text)                                              \
    do {                                                                        \
        const char *t = text;                                                   \
        lend_text();                                                            \
        REFUSED_AT(number, 0, READ(t, strlen(t)));                              \
        IS(nothing_read() && work_cleared(WORK));                               \
        lend_text();                                                            \
        REFUSED_AT(number, 0, NAMES(t, strlen(t), 5, WORK));                    \
        IS(as_lent(names, 5) && work_cleared(WORK));                            \
    } while (0)

#define TABLE_REFUSED(number, index, text, sources)                             \
    do {                                                                        \
        const char *t = text;                                                   \
        lend_text();                                                            \
        REFUSED_AT(number, index, READ(t, strlen(t)));                          \
        IS(nothing_read() && work_cleared(WORK));                               \
        lend_text();                                                            \
        ACCEPTED(NAMES(t, strlen(t), 5, WORK));                                 \
        IS(x == (sources) && as_lent(names + 2 * (sources), 5 - 2 * (sources)) && work_cleared(WORK)); \
    } while (0)

/* A text that is accepted, at any address. */
static void read_calls(void) {
    uint8_t room[2048];
    const uint64_t first[13] = {100, 25, 1, 0, 0, 0, 0, 0, 0, 0, 9, 0, 0}, second[13] = {50, 25, 1, 1, 0, 20, 2, 1000, 1, 8, MOST, 1, 5};
    const uint64_t rows[10] = {0, 10, 30, 0, 0, 1, 5, 20, 30, 1};
    const int64_t stamps[14] = {0, 0, 1200000, 0, 0, 0, 0, 0, 1200000, 800000, 0, 0, 0, 7};
    const size_t length = strlen(whole);
    for (size_t shift = 0; shift < 8; shift++) {
        memcpy(room + shift, whole, length);
        lend_text();
        ACCEPTED(READ(room + shift, length));
        IS(got.frames == 50 && got.sources == 2 && got.segments == 2 && got.dates == 20 && got.log == 0 && work_cleared(WORK));
        IS(memcmp(text_sources, first, sizeof first) == 0 && memcmp(text_sources + 13, second, sizeof second) == 0 && text_sources[26] == LENT);
        IS(memcmp(text_segments, rows, sizeof rows) == 0 && text_segments[10] == LENT);
        IS(memcmp(text_stamps, stamps, sizeof stamps) == 0 && stamps_as_lent(14));
        IS(memcmp(dates, "2024-11-17T13:12:46Z", 20) == 0 && dates[20] == LENT);
        /* what was read is what is lent */
        ACCEPTED(st_check(text_sources, 13 * got.sources, text_segments, 5 * got.segments, text_stamps, 7 * got.segments, got.log, dates, got.dates, &x, &at));
        IS(x == got.frames);
        lend_text();
        ACCEPTED(NAMES(room + shift, length, 4, WORK));
        IS(x == 2 && names[1] == strlen(FIRST_NAME) && names[3] == strlen(SECOND_NAME) && names[4] == LENT && work_cleared(WORK));
        IS(memcmp(room + shift + names[0], FIRST_NAME, names[1]) == 0 && memcmp(room + shift + names[2], SECOND_NAME, names[3]) == 0);
        ACCEPTED(st_json_string(room + shift, length, names[2] - 1, bytes, 7, &x, &at));
        IS(x == 7 && memcmp(bytes, "C\"\xf0\x9f\x98\x80\n", 7) == 0 && bytes_as_lent(bytes + 7, 2));
    }
}

/* Too little room, by one element and for any at all. */
static void text_room_calls(void) {
    const size_t length = strlen(whole);
    const size_t exact[5] = {26, 10, 14, 20, WORK};
    for (size_t k = 0; k < 5; k++) {
        for (int none = 0; none < 2; none++) {
            size_t r[5];
            memcpy(r, exact, sizeof r);
            r[k] = none ? 0 : r[k] - 1;
            lend_text();
            REFUSED_AT(ST_NO_ROOM, k == 4, READ_WITHIN(whole, length, r[0], r[1], r[2], r[3], r[4]));
            IS(nothing_read() && work_cleared(r[4]));
        }
    }
    lend_text();
    ACCEPTED(READ_WITHIN(whole, length, 26, 10, 14, 20, WORK));
    lend_text();
    REFUSED_AT(ST_NO_ROOM, 0, st_read_table((const uint8_t *)whole, length, NULL, 0, NULL, 0, NULL, 0, NULL, 0, text_work, WORK, &got, &at));
    IS(nothing_read() && work_cleared(WORK));
    lend_text();
    REFUSED_AT(ST_NO_ROOM, 1, st_read_table((const uint8_t *)whole, length, NULL, 0, NULL, 0, NULL, 0, NULL, 0, NULL, 0, &got, &at));
    REFUSED_AT(ST_NO_ROOM, 1, st_read_table(NULL, 0, NULL, 0, NULL, 0, NULL, 0, NULL, 0, NULL, 0, &got, &at));
    REFUSED_AT(ST_NOT_JSON, 0, st_read_table(NULL, 0, NULL, 0, NULL, 0, NULL, 0, NULL, 0, text_work, WORK, &got, &at));
    IS(nothing_read() && work_cleared(WORK));

    lend_text();
    REFUSED_AT(ST_NO_ROOM, 0, NAMES(whole, length, 3, WORK));
    IS(as_lent(names, 5) && work_cleared(WORK));
    lend_text();
    REFUSED_AT(ST_NO_ROOM, 1, NAMES(whole, length, 4, WORK - 1));
    IS(as_lent(names, 5) && work_cleared(WORK - 1));
    REFUSED_AT(ST_NO_ROOM, 1, st_source_names(NULL, 0, NULL, 0, NULL, 0, &x, &at));
    REFUSED_AT(ST_NOT_JSON, 0, st_source_names(NULL, 0, NULL, 0, text_work, WORK, &x, &at));
    REFUSED_AT(ST_NO_ROOM, 0, st_source_names((const uint8_t *)whole, length, NULL, 0, text_work, WORK, &x, &at));
}

/* Every refusal of a text. */
static void bad_text_calls(void) {
    TEXT_REFUSED(ST_NOT_JSON, "");
    TEXT_REFUSED(ST_NOT_JSON, "{");
    TEXT_REFUSED(ST_NOT_JSON, "{\"a\":\"\\ud800\"}");
    TEXT_REFUSED(ST_NOT_JSON, "[\"\xed\xa0\x80\"]");
    TEXT_REFUSED(ST_NOT_JSON, "\xef\xbb\xbf[]");
    TEXT_REFUSED(ST_NOT_JSON, TABLE_OF("1", FIRST, BOTH) "]");
    TEXT_REFUSED(ST_NOT_JSON, "[[[[[[[[[[[[[[[[[[[[[[[[[[[[[[[[[]]]]]]]]]]]]]]]]]]]]]]]]]]]]]]]]]");
    TEXT_REFUSED(ST_OTHER_VERSION, "[[[[[[[[[[[[[[[[[[[[[[[[[[[[[[[[1]]]]]]]]]]]]]]]]]]]]]]]]]]]]]]]]");
    TEXT_REFUSED(ST_REPEATED_NAME, "{\"version\":1,\"\\u0076ersion\":1}");
    TEXT_REFUSED(ST_REPEATED_NAME, "[{\"\":{\"a\":1,\"a\":1}}]");
    TEXT_REFUSED(ST_OTHER_VERSION, TABLE_OF("1.0", FIRST, BOTH));
    TEXT_REFUSED(ST_OTHER_VERSION, "{}");
    TEXT_REFUSED(ST_BAD_MEMBER, "{\"version\":1}");
    TEXT_REFUSED(ST_BAD_MEMBER, TABLE_OF("1", "{}", BOTH));
    TEXT_REFUSED(ST_BAD_MEMBER, TABLE_OF("1", "", "{}"));
    TEXT_REFUSED(ST_BAD_MEMBER, TABLE_OF("1", FIRST, SEGMENT(0, 1.0, 1, 0, 0, 0, null)));
    TEXT_REFUSED(ST_BAD_MEMBER, TABLE_OF("1", FIRST, SEGMENT(0, 0, 18446744073709551616, 0, 0, 0, null)));

    TABLE_REFUSED(ST_NO_SOURCES, 0, TABLE_OF("1", "", BOTH), 0);
    TABLE_REFUSED(ST_NO_SEGMENTS, 0, TABLE_OF("1", FIRST, ""), 1);
    TABLE_REFUSED(ST_NO_SUCH_SOURCE, 1, TABLE_OF("1", FIRST, BOTH), 1);
    TABLE_REFUSED(ST_FRAME_GAP, 1, TABLE_OF("1", FIRST "," SECOND, SEGMENT(0, 0, 1, 0, 0, 0, null) "," SEGMENT(0, 0, 1, 0, 0, 0, null)), 2);
    TABLE_REFUSED(ST_FRAMES_WRAP, 0, TABLE_OF("1", FIRST, SEGMENT(0, 1, 18446744073709551615, 0, 0, 0, null)), 1);
    TABLE_REFUSED(ST_NEGATIVE_TIME, 0, TABLE_OF("1", FIRST, SEGMENT(0, 0, 1, 0, 0, -9223372036854775808, null)), 1);
    TABLE_REFUSED(ST_BAD_SHIFT, 0, TABLE_OF("1", FIRST "," SECOND, SEGMENT(1, 0, 1, 0, 0, 0, 8)), 2);
}

/* The longest text, and one longer; and a text of as many names as that holds. */
static void long_text_calls(void) {
    const size_t most = 1048576, room = most / 4;
    char *text = malloc(most + 1);
    uint64_t *work = calloc(room, 8);
    if (text && work) {
        const size_t length = strlen(whole);
        memset(text, ' ', most + 1);
        memcpy(text + most - length, whole, length);
#define LONG(length, words) \
    st_read_table((const uint8_t *)text, length, text_sources, 27, text_segments, 11, text_stamps, 15, dates, 21, work, words, &got, &at)
        lend_text();
        REFUSED_AT(ST_TEXT_TOO_LONG, 0, LONG(most + 1, room));
        REFUSED_AT(ST_TEXT_TOO_LONG, 0, st_read_table((const uint8_t *)text, most + 1, NULL, 0, NULL, 0, NULL, 0, NULL, 0, NULL, 0, &got, &at));
        REFUSED_AT(ST_TEXT_TOO_LONG, 0, st_source_names((const uint8_t *)text, most + 1, NULL, 0, NULL, 0, &x, &at));
        REFUSED_AT(ST_TEXT_TOO_LONG, 0, st_json_string((const uint8_t *)text, most + 1, 0, NULL, 0, &x, &at));
        REFUSED_AT(ST_NO_ROOM, 1, LONG(most, room - 1));
        REFUSED_AT(ST_NO_ROOM, 1, LONG(most, WORK));
        REFUSED_AT(ST_NO_ROOM, 1, st_source_names((const uint8_t *)text, most, names, 5, work, room - 1, &x, &at));
        IS(nothing_read() && as_lent(names, 5));
        ACCEPTED(LONG(most, room));
        IS(got.frames == 50 && got.sources == 2);
        ACCEPTED(st_source_names((const uint8_t *)text, most, names, 5, work, room, &x, &at));
        IS(x == 2 && names[0] > most - length);

        /* names in order, and the last one twice; a string that fills the text */
        size_t to = 0;
        text[to++] = '{';
        for (uint64_t k = 0; to + 32 < most; k++) to += (size_t)sprintf(text + to, "\"%" PRIu64 "\":%" PRIu64 ",", k, k);
        memcpy(text + to, "\"0\":0}", 6);
        REFUSED_AT(ST_REPEATED_NAME, 0, LONG(to + 6, room));
        memcpy(text + to, "\"x\":0}", 6);
        REFUSED_AT(ST_OTHER_VERSION, 0, LONG(to + 6, room));
        memset(text, '"', most);
        memset(text + 1, 'x', most - 2);
        REFUSED_AT(ST_OTHER_VERSION, 0, LONG(most, room));
        text[most - 1] = 'x';
        REFUSED_AT(ST_NOT_JSON, 0, LONG(most, room));
        REFUSED_AT(ST_NOT_JSON, 0, st_json_string((const uint8_t *)text, most, 0, NULL, 0, &x, &at));
        for (size_t k = 0; k < room; k++) if (work[k]) IS(!"the working slice is zero");
    }
    free(text), free(work);
}

/* Strings of any bytes: at, before and past their quotation marks. */
static void string_calls(void) {
#define STRING(text, offset, room) st_json_string((const uint8_t *)(text), strlen(text), offset, bytes, room, &x, &at)
    lend_text();
    REFUSED_AT(ST_NOT_JSON, 0, STRING("\"a\"", 1, 9));
    REFUSED_AT(ST_NOT_JSON, 0, STRING("\"a\"", 2, 9));
    REFUSED_AT(ST_NOT_JSON, 0, STRING("\"a\"", 3, 9));
    REFUSED_AT(ST_NOT_JSON, 0, STRING("\"a\"", MOST, 9));
    REFUSED_AT(ST_NOT_JSON, 0, STRING("\"a", 0, 9));
    REFUSED_AT(ST_NOT_JSON, 0, STRING("\"\\ud83d\"", 0, 9));
    REFUSED_AT(ST_NOT_JSON, 0, STRING("\"\\ude00\\ud83d\"", 0, 9));
    REFUSED_AT(ST_NOT_JSON, 0, STRING("\"\x80\"", 0, 9));
    REFUSED_AT(ST_NOT_JSON, 0, STRING("\"\n\"", 0, 9));
    REFUSED_AT(ST_NOT_JSON, 0, st_json_string(NULL, 0, 0, NULL, 0, &x, &at));
    REFUSED_AT(ST_NOT_JSON, 0, st_json_string(NULL, 0, MOST, bytes, 9, &x, &at));
    REFUSED_AT(ST_NO_ROOM, 0, STRING("\"a\"", 0, 0));
    REFUSED_AT(ST_NO_ROOM, 0, STRING("\"\\ud83d\\ude00\"", 0, 3));
    REFUSED_AT(ST_NO_ROOM, 0, st_json_string((const uint8_t *)"\"a\"", 3, 0, NULL, 0, &x, &at));
    IS(bytes_as_lent(bytes, 9));
    ACCEPTED(STRING("\"\"", 0, 9));
    IS(x == 0);
    ACCEPTED(st_json_string((const uint8_t *)"\"\"", 2, 0, NULL, 0, &x, &at));
    IS(x == 0 && bytes_as_lent(bytes, 9));
    ACCEPTED(STRING("}] \"\\ud83d\\ude00\" and no JSON", 3, 4));
    IS(x == 4 && memcmp(bytes, "\xf0\x9f\x98\x80", 4) == 0 && bytes_as_lent(bytes + 4, 5));
    ACCEPTED(STRING("\"\\\"\\\\\\/\\b\\f\\n\\r\\t\"", 0, 8));
    IS(x == 8 && memcmp(bytes, "\"\\/\b\f\n\r\t", 8) == 0 && bytes[8] == LENT);
}

int main(void) {
    clock_calls();
    table_calls();
    list_calls();
    record_calls();
    map_calls();
    cut_calls();
    origin_calls();
    read_calls();
    text_room_calls();
    bad_text_calls();
    long_text_calls();
    string_calls();
    box_calls();
    stop_calls();
    recording_calls();
    for (int standard = 0; standard < 2; standard++) { /* the crate's mode, then the standard's */
        movie_calls(standard);
        hidden_calls(standard);
        shown_calls(standard);
        sound_calls(standard);
        signed_calls(standard);
    }
    unsigned_calls();
    judge_calls();
    if (!failed) puts("ok");
    return failed;
}
