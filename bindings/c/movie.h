/* Boxes of an ISO base media file, written at any address. */
#include <stddef.h>
#include <stdint.h>
#include <string.h>

/* A 32-bit word; where it ends. */
static uint8_t *put(uint8_t *to, uint32_t word) {
    for (int shift = 24; shift >= 0; shift -= 8) *to++ = (uint8_t)(word >> shift);
    return to;
}

/* A box: size, type, then what is inside, at any address. */
static uint8_t *box(uint8_t *to, const char *kind, uint32_t payload) {
    memcpy(put(to, payload + 8), kind, 4);
    return to + 8;
}

static uint32_t code(const char *kind) {
    const uint8_t *k = (const uint8_t *)kind;
    return (uint32_t)k[0] << 24 | (uint32_t)k[1] << 16 | (uint32_t)k[2] << 8 | k[3];
}

/* A full box of 32-bit words after its version and flags; where it ends. */
static uint8_t *full(uint8_t *to, const char *kind, const uint32_t *words, uint32_t count) {
    to = put(box(to, kind, 4 + 4 * count), 0);
    for (uint32_t k = 0; k < count; k++) to = put(to, words[k]);
    return to;
}

/* The payload of a moov of one video track, with the words of its stts and, where there are some, of its ctts; how long it is. The
 * hdlr, by which a track is known, comes first in its mdia. */
static size_t make_movie(uint8_t *at, uint32_t scale, const uint32_t *stts, uint32_t n, const uint32_t *ctts, uint32_t m) {
    uint32_t tables = 12 + 4 * n + (m ? 12 + 4 * m : 0), media = 24 + 20 + 8 + 8 + tables;
    uint8_t *to = full(at, "mvhd", (const uint32_t[]){0, 0, 100}, 3);
    to = box(box(to, "trak", media + 8), "mdia", media);
    to = full(to, "hdlr", (const uint32_t[]){0, code("vide")}, 2);
    to = full(to, "mdhd", (const uint32_t[]){0, 0, scale}, 3);
    to = box(box(to, "minf", tables + 8), "stbl", tables);
    to = full(to, "stts", stts, n);
    return (size_t)((m ? full(to, "ctts", ctts, m) : to) - at);
}

/* The same of at most four runs of durations. */
static size_t make_moov(uint8_t *at, uint32_t scale, const uint32_t *runs, uint32_t count) {
    uint32_t entries[9] = {count / 2};
    memcpy(entries + 1, runs, count * sizeof *runs);
    return make_movie(at, scale, entries, count + 1, NULL, 0);
}
