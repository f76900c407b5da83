/*
 * One frame of the layout 500/4 sent and received: symbols by dimpstea_modulate, made into 3 kHz samples here, fed in
 * pieces of 1,000, located and read where it is detected. Prints where it was found and how many payload bits differ.
 *
 *     host/archives
 *     cc -O2 -Iinclude examples/send_and_receive.c -Ltarget/staticlib -lcalls_c -lmodem_c -lm -o send_and_receive
 */
#include "dimpstea.h"

#include <math.h>
#include <stdio.h>
#include <stdlib.h>
#include <string.h>

#define BANDWIDTH 500
#define RECORD 4
#define TURN 6.283185307179586
/* Quiet samples before the first lead symbol. */
#define QUIET 700
#define PIECE 1000

/* Ends the program with the words of a refusal. */
static void accepted(const char *call, uint32_t refusal) {
    if (refusal != DIMPSTEA_ACCEPTED) {
        fprintf(stderr, "%s: refused by %u, %s\n", call, refusal, dimpstea_refusal_words(refusal));
        exit(1);
    }
}

/* A small generator of whole numbers from 0 to 65,535. */
static unsigned draw(void) {
    static uint32_t state = 1;
    state = state * 1664525u + 1013904223u;
    return state >> 16;
}

static void *room(size_t count, size_t size) {
    void *p = calloc(count, size);
    if (p == NULL) {
        fprintf(stderr, "no room for %zu numbers\n", count);
        exit(1);
    }
    return p;
}

/* Marker values 5, 25, 45, .. on the first carrier, each one more on the next; and the flags that they set. */
static void fill_markers(uint16_t *table, size_t nc, size_t spf, size_t markers) {
    uint16_t *flags = table + nc * markers;
    for (size_t c = 0; c < nc; c++) {
        for (size_t i = 0; i < markers; i++) {
            uint16_t value = (uint16_t)(5 + 20 * i + c);
            table[c * markers + i] = value;
            flags[c * (spf - 1) + value - 2] = 1;
        }
    }
}

/* A carrier's row as 3 kHz samples: a symbol's pulse is a raised cosine over its two neighbours. */
static void add_carrier(double *samples, const double *row, size_t symbols, size_t at, uint64_t hz) {
    for (size_t i = 0; i < 32 * (symbols - 1); i++) {
        double late = 0.5 + 0.5 * cos(TURN / 2 * (double)(i % 32) / 32);
        const double *a = row + 2 * (i / 32), *b = a + 2;
        double re = a[0] * late + b[0] * (1 - late), im = a[1] * late + b[1] * (1 - late);
        size_t n = at + i;
        double turn = TURN * (double)(hz * n % 3000) / 3000;
        samples[2 * n] += re * cos(turn) - im * sin(turn);
        samples[2 * n + 1] += re * sin(turn) + im * cos(turn);
    }
}

int main(void) {
    uint64_t layout[DIMPSTEA_LAYOUT];
    accepted("layout", dimpstea_layout(BANDWIDTH, RECORD, layout, DIMPSTEA_LAYOUT));
    size_t nc = layout[0], spf = layout[1], markers = layout[2], nsym = layout[4], n = layout[5];
    uint64_t first_hz = layout[7], spacing_hz = layout[8], keep = layout[11];

    /* The tables that sender and receiver share: markers, and phasors of size 1. */
    size_t markers_len = nc * (markers + spf - 1), phasors_len = 2 * nc * nsym;
    uint16_t *table = room(markers_len, sizeof *table);
    double *phasors = room(phasors_len, sizeof *phasors);
    fill_markers(table, nc, spf, markers);
    for (size_t i = 0; i < nc * nsym; i++) {
        double angle = TURN * draw() / 65536;
        phasors[2 * i] = cos(angle);
        phasors[2 * i + 1] = sin(angle);
    }

    /* Sending: a payload bit a byte, a draw for each carrier's reference and for each of its 8 leads. */
    size_t symbols = 9 + nsym, rows_len = 2 * nc * symbols, draws_len = nc * 9;
    uint8_t *payload = room(n, 1), *draws = room(draws_len, 1);
    double *rows = room(rows_len, sizeof *rows);
    for (size_t i = 0; i < n; i++)
        payload[i] = (uint8_t)(draw() % 2);
    accepted("modulate", dimpstea_modulate(BANDWIDTH, RECORD, table, markers_len, phasors, phasors_len, 1, payload, n,
                                           draws, draws_len, rows, rows_len));
    size_t count = QUIET + 32 * symbols + 1500;
    double *samples = room(2 * count, sizeof *samples);
    for (size_t c = 0; c < nc; c++)
        add_carrier(samples, rows + 2 * c * symbols, symbols, QUIET + 16 * (c % 2), first_hz + c * spacing_hz);

    /* The turn book takes carrier fc down: entry k is k / 3,000 of a turn, the other way round. */
    double *book = room(6000, sizeof *book);
    for (size_t k = 0; k < 3000; k++) {
        book[2 * k] = cos(TURN * (double)k / 3000);
        book[2 * k + 1] = -sin(TURN * (double)k / 3000);
    }

    /* Receiving. */
    uint64_t state[DIMPSTEA_STATE], released = 0, position = 0, found = 0, has_found = 0;
    double metric = 0, release_metric = 0;
    size_t memory_len = 2 * (1 + 3 * nc) * (2 * keep + 4000);
    double *memory = room(memory_len, sizeof *memory);
    accepted("open", dimpstea_open(BANDWIDTH, RECORD, table, markers_len, phasors, phasors_len, 0, book, 6000, state,
                                   DIMPSTEA_STATE, &metric));
    for (size_t at = 0; at < count; at += PIECE) {
        size_t piece = count - at < PIECE ? count - at : PIECE;
        accepted("feed", dimpstea_feed(BANDWIDTH, RECORD, table, markers_len, phasors, phasors_len, book, 6000, state,
                                       DIMPSTEA_STATE, &metric, memory, memory_len, at, samples + 2 * at, 2 * piece,
                                       &released, &position, &release_metric));
        if (released && !has_found) {
            has_found = 1;
            found = position;
        }
    }
    if (!has_found) {
        fprintf(stderr, "no frame was detected\n");
        return 1;
    }

    /* Reading, without drift rows. */
    uint64_t t = 0, differing = 0;
    size_t scratch_len = 2 * nc * nsym;
    double result[DIMPSTEA_READING], *scratch = room(scratch_len, sizeof *scratch), *soft = room(n, sizeof *soft);
    uint8_t *bits = room(n, 1);
    accepted("read", dimpstea_read(BANDWIDTH, RECORD, table, markers_len, phasors, phasors_len, state, DIMPSTEA_STATE,
                                   metric, memory, memory_len, found, memory, 0, scratch, scratch_len, soft, n, &t,
                                   result, DIMPSTEA_READING));
    accepted("payload_bits", dimpstea_payload_bits(BANDWIDTH, RECORD, soft, n, bits, n));
    accepted("meter", dimpstea_meter(BANDWIDTH, RECORD, payload, n, bits, n, &differing));
    printf("detected at %llu, read at %llu, %llu of %zu payload bits differ\n", (unsigned long long)found,
           (unsigned long long)t, (unsigned long long)differing, n);
    return differing != 0;
}
