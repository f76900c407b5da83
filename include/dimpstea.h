/*
 * The open calls of the PSK modem, for C. Link with libcalls_c.a and libmodem_c.a, which `host/archives` builds:
 * they need a processor with SSE4.2 (x86-64-v2), which nothing tests.
 *
 * Every call answers 0, or the number of the first condition met in document 01, "Where each fault is
 * met" (their words are below). After a refusal nothing lent has changed, save the scratch after 24. No call keeps a
 * pointer, allocates or writes past a length.
 *
 * A slice is a pointer and a count of elements. A pointer is never null, not even with a count of 0.
 * Nothing lent for writing overlaps anything else that is lent.
 * A complex number is two doubles, the real part first. Every length below counts elements of the pointer's
 * own type, so that a complex number counts as 2.
 *
 * Numbers are IEEE 754 binary64 and binary32, rounded to nearest: a thread that has set another rounding mode, or that
 * flushes subnormal numbers to zero, gets other bits. Calls share nothing but what they are lent: any number of them
 * may run at once, as long as no two are lent the same state, memory or buffer for writing.
 *
 * The stack that a call needs, accepted or refused, in bytes:
 *    256,000  feed                         2,000  modulate, nco_phase, open, decibels
 *     80,000  read                         1,000  layout, offer, payload_bits, meter, soft_step,
 *     43,000  locate                              nearest_point, draw_markers
 *     38,000  by_time, by_carrier
 *      8,000  carrier_audio, residual
 * Measured on x86-64 Linux by `bench/run --stack` and rounded up: the most over all layouts of what a call changed
 * of a painted stack, with its caller's frame. It is touched page by page, so that a guard page below it is met.
 */
#ifndef DIMPSTEA_H
#define DIMPSTEA_H

#include <stddef.h>
#include <stdint.h>

#ifdef __cplusplus
extern "C" {
#endif

/*
 * What a call answers: 0, or the number of the first condition met. Each call below names its own, and meets them in
 * this order.
 */
enum dimpstea_refusal {
    DIMPSTEA_ACCEPTED = 0,
    DIMPSTEA_LEVEL = 1,
    DIMPSTEA_NOT_PSK = 2,
    DIMPSTEA_MARKER_LENGTH = 3,
    DIMPSTEA_MARKER_VALUE = 4,
    DIMPSTEA_MARKER_FLAG = 5,
    DIMPSTEA_PHASOR_COUNT = 6,
    DIMPSTEA_PHASOR_SIZE = 7,
    DIMPSTEA_FRAMES = 8,
    DIMPSTEA_PAYLOAD = 9,
    DIMPSTEA_DRAWS = 10,
    DIMPSTEA_BUFFER_LENGTH = 11,
    DIMPSTEA_SYMBOLS = 12,
    DIMPSTEA_WINDOW = 13,
    DIMPSTEA_WAVES = 14,
    DIMPSTEA_START = 15,
    DIMPSTEA_TURN_BOOK = 16,
    DIMPSTEA_STATE = 17,
    DIMPSTEA_SAMPLE_COUNT = 18,
    DIMPSTEA_SAMPLE_NUMBER = 19,
    DIMPSTEA_SAMPLE_SIZE = 20,
    DIMPSTEA_OFFER = 21,
    DIMPSTEA_NOT_IN_HAND = 22,
    DIMPSTEA_DRIFT_ROWS = 23,
    DIMPSTEA_GAIN = 24,
    DIMPSTEA_PILOT_SUM = 25,
    DIMPSTEA_MEDIAN = 26,
    DIMPSTEA_DRAW_STATE = 29,
    DIMPSTEA_DRAWS_SPENT = 30,
    DIMPSTEA_ALPHABET_SIZE = 31,
    DIMPSTEA_STEP_SIZE = 32,
    DIMPSTEA_NOISE_VARIANCE = 33,
};

/* The words of a condition. */
static inline const char *dimpstea_refusal_words(uint32_t number) {
    switch (number) {
    case DIMPSTEA_ACCEPTED:
        return "accepted";
    case DIMPSTEA_LEVEL:
        return "bandwidth not 500, 2300, 2750, or record not 1 to 17";
    case DIMPSTEA_NOT_PSK:
        return "record isn't PSK there";
    case DIMPSTEA_MARKER_LENGTH:
        return "marker table length";
    case DIMPSTEA_MARKER_VALUE:
        return "marker value outside 5 to spf - 4, or twice on a carrier";
    case DIMPSTEA_MARKER_FLAG:
        return "a flag not 1 where a value sets it or not 0 elsewhere (value v sets its carrier's flag v - 2)";
    case DIMPSTEA_PHASOR_COUNT:
        return "phasor count not nc x nsym";
    case DIMPSTEA_PHASOR_SIZE:
        return "phasor part not finite, or squared size outside 0.99 to 1.01";
    case DIMPSTEA_FRAMES:
        return "frames not 1 to 4";
    case DIMPSTEA_PAYLOAD:
        return "payload length, or a byte above 1";
    case DIMPSTEA_DRAWS:
        return "count of draws, or one not below the alphabet size";
    case DIMPSTEA_BUFFER_LENGTH:
        return "an out, scratch or result buffer of wrong length";
    case DIMPSTEA_SYMBOLS:
        return "symbol row length, part not finite or above 256 in size";
    case DIMPSTEA_WINDOW:
        return "window above 4,096 or past the end";
    case DIMPSTEA_WAVES:
        return "wave row length or part outside -1 to 1; phase outside 0 to f32 TAU";
    case DIMPSTEA_START:
        return "start outside 0 to 2^40";
    case DIMPSTEA_TURN_BOOK:
        return "turn book length, or part outside -1 to 1";
    case DIMPSTEA_STATE:
        return "memory length, or a state that isn't a receiver's of this layout";
    case DIMPSTEA_SAMPLE_COUNT:
        return "above 4,000 samples, or half a sample";
    case DIMPSTEA_SAMPLE_NUMBER:
        return "first sample's number not the sample end, or end past 2^48";
    case DIMPSTEA_SAMPLE_SIZE:
        return "sample part not finite or above 2^20 in size";
    case DIMPSTEA_OFFER:
        return "hold, dead, offered or held position outside 0 to 2^48, or a metric not finite";
    case DIMPSTEA_NOT_IN_HAND:
        return "the frame isn't in hand";
    case DIMPSTEA_DRIFT_ROWS:
        return "drift row length or part outside -1 to 1";
    case DIMPSTEA_GAIN:
        return "gain not finite and above 0";
    case DIMPSTEA_PILOT_SUM:
        return "pilot sum with a part not finite or above 64 in size, or whose truncated parts are both zero";
    case DIMPSTEA_MEDIAN:
        return "median not from 0 to 2, or M is 0";
    case DIMPSTEA_DRAW_STATE:
        return "a generator's state above 24 bits, or a draw limit outside 1 to 4,096";
    case DIMPSTEA_DRAWS_SPENT:
        return "a row's draws spent with markers still missing";
    case DIMPSTEA_ALPHABET_SIZE:
        return "alphabet size other than 2, 4, 8, 16 or 32";
    case DIMPSTEA_STEP_SIZE:
        return "step part not finite or above 2^20 in size";
    case DIMPSTEA_NOISE_VARIANCE:
        return "noise variance not finite or outside 0.001 to 2^60";
    default:
        return "no condition has this number";
    }
}

/*
 * The numbers of a layout, in this order: carriers, symbols of a frame (spf), markers of a carrier, bits of
 * a cell, nsym, payload bits n, taps, first carrier and spacing in Hz, delay, greatest stagger, keep, dead.
 */
#define DIMPSTEA_LAYOUT 13

/*
 * A receiver's state is DIMPSTEA_STATE numbers and one metric. The numbers, in this order:
 *    0 bandwidth            1 record               2 start
 *    3 sample base          4 sample length
 *    5 filtered base        6 filtered length
 *    7 step base            8 step length
 *    9 power base          10 power length
 *   11 has searched (0, 1) 12 search place
 *   13 hold                14 dead
 *   15 has a block (0, 1)  16 block
 *   17 holds (0, 1)        18 held position
 * The metric is the held candidate's. What is absent is stored as 0; a 12, 16, 18 or metric that is absent
 * isn't read. Any number but 0 in 11, 15 or 17 counts as 1. A state of another length, or with a bandwidth
 * or record that no u32 holds, meets condition 17.
 */
#define DIMPSTEA_STATE 19

/*
 * A hold by itself is DIMPSTEA_HOLD numbers, as 13 to 18 above, and one metric. Another length meets 21.
 */
#define DIMPSTEA_HOLD 6

/*
 * What a located frame hands over beside its position t: chi, and the pilot sum's real and imaginary part.
 */
#define DIMPSTEA_LOCATED 3

/*
 * What a reading hands over beside t: chi, the pilot sum's real and imaginary part, the mean norm g, the noise
 * variance, the median.
 */
#define DIMPSTEA_READING 6

/* Conditions 1 2 11. Writes the numbers; numbers_len is DIMPSTEA_LAYOUT. */
uint32_t dimpstea_layout(uint32_t bandwidth, uint32_t record,
                         uint64_t *numbers, size_t numbers_len);

/*
 * Conditions 1 to 11. Writes the rows of 1 to 4 frames: for each carrier 8 leads, nsym symbols a frame and one zero.
 *   markers_len  nc x (markers of a carrier + spf - 1): the values, then the flags, carrier after carrier
 *   phasors_len  2 x nc x nsym
 *   payload_len  frames x n, a bit a byte
 *   draws_len    nc x (frames + 8): frame by frame each carrier's reference point, then lead by lead each carrier's;
 *                each below 2 (one bit a cell) or 4 (two)
 *   rows_len     2 x nc x (9 + frames x nsym)
 */
uint32_t dimpstea_modulate(uint32_t bandwidth, uint32_t record,
                           const uint16_t *markers, size_t markers_len,
                           const double *phasors, size_t phasors_len,
                           uint32_t frames,
                           const uint8_t *payload, size_t payload_len,
                           const uint8_t *draws, size_t draws_len,
                           double *rows, size_t rows_len);

/*
 * Conditions 1 2 11 13 14. Writes each carrier's phase at each of `window` places, at most 4,096, and the phases after
 * them. The first window starts from phases of 0.
 *   phases_len   nc
 *   out_len      nc x window, carrier after carrier
 */
uint32_t dimpstea_nco_phase(uint32_t bandwidth, uint32_t record, size_t window,
                            float *phases, size_t phases_len,
                            float *out, size_t out_len);

/*
 * Conditions 1 2 8 11 to 14. Writes the 48 kHz samples at `window` places from `place` on, and the phases after them. A
 * signal of L = 9 + frames x nsym symbols a carrier has 16 x (32 x L + greatest stagger + taps - 1) + 31 places.
 *   symbols_len  2 x nc x L, as dimpstea_modulate wrote them
 *   waves_len    2 x nc x window: carrier after carrier a cosine and a sine of the phase that dimpstea_nco_phase gives
 *                for each place
 *   phases_len   nc, the phases before the window
 *   out_len      window
 */
uint32_t dimpstea_carrier_audio(uint32_t bandwidth, uint32_t record, uint32_t frames,
                                const double *symbols, size_t symbols_len,
                                uint64_t place, size_t window,
                                const double *waves, size_t waves_len,
                                float *phases, size_t phases_len,
                                double *out, size_t out_len);

/*
 * Conditions 1 to 7, 11 (a state of another length), 15 16. Writes a fresh receiver's state, whose first sample has the
 * number `start`.
 *   markers_len, phasors_len as for dimpstea_modulate
 *   book_len     6,000: entry k turns a sample by -k / 3,000 of a turn, (cos a, -sin a) with a = 2 pi x k / 3000
 *   state_len    DIMPSTEA_STATE
 */
uint32_t dimpstea_open(uint32_t bandwidth, uint32_t record,
                       const uint16_t *markers, size_t markers_len,
                       const double *phasors, size_t phasors_len,
                       uint64_t start,
                       const double *book, size_t book_len,
                       uint64_t *state, size_t state_len, double *metric);

/*
 * Conditions 1 to 7, 16 to 20. Writes the next state and the memory; *released is 1 where a detection was
 * released, whose position and metric are then written, and 0 otherwise.
 *
 * number is that of the first sample, the sample base + the sample length of the state: `start` in the first feed.
 * The memory may hold anything at first, and goes with the state from then on: a state is used with the memory that the
 * same call left, and with no other. Tables and book may be others in each feed. Lengths: book_len 6,000, samples_len
 * 2 for each sample (at most 8,000), and the others as for dimpstea_locate.
 */
uint32_t dimpstea_feed(uint32_t bandwidth, uint32_t record,
                       const uint16_t *markers, size_t markers_len,
                       const double *phasors, size_t phasors_len,
                       const double *book, size_t book_len,
                       uint64_t *state, size_t state_len, double *metric,
                       double *memory, size_t memory_len,
                       uint64_t number,
                       const double *samples, size_t samples_len,
                       uint64_t *released, uint64_t *release_position, double *release_metric);

/*
 * Where a frame lies. Conditions 1 to 7, 11 (a result of another length), 17 22.
 *
 * t0 is a released position (any other may be given). Looks at t0 - 3 to t0 + 3, and writes
 *   *t       the position of greatest chi, the first of equals: the 3 kHz sample of the frame's first symbol
 *   result   DIMPSTEA_LOCATED numbers: chi and the pilot sum there
 * and, after a refusal, neither. State and memory are only read.
 *
 * With layout numbers nc (carriers), nsym, keep and so on as dimpstea_layout gives them, the lengths are
 *   markers_len  nc x (markers of a carrier + spf - 1): the values, then the flags, carrier after carrier
 *   phasors_len  2 x nc x nsym
 *   state_len    DIMPSTEA_STATE (17 otherwise)
 *   memory_len   2 x (1 + 3 x nc) x (2 x keep + 4000) (17 otherwise)
 *   result_len   DIMPSTEA_LOCATED (11 otherwise)
 *
 * The frame is in hand from t0 = filtered base + 35 up to
 * t0 = filtered base + filtered length - 4 - greatest stagger - 32 x (nsym - 1); for any other t0 it is 22.
 *
 * Two things are left to the host. The frame ends at t + greatest stagger + 32 x nsym. The frame is still
 * df = atan2(pilot sum's imaginary part, its real part) x 3000 / (2 pi x 32) Hz too high; it counts as 0 unless
 * it exceeds 1 Hz in size.
 */
uint32_t dimpstea_locate(uint32_t bandwidth, uint32_t record,
                         const uint16_t *markers, size_t markers_len,
                         const double *phasors, size_t phasors_len,
                         const uint64_t *state, size_t state_len, double metric,
                         const double *memory, size_t memory_len,
                         uint64_t t0,
                         uint64_t *t, double *result, size_t result_len);

/*
 * Reads a frame. Conditions 1 to 7, 11 (scratch, out or result of another length), 17 22 23 24.
 *
 * Locates the frame around t0 as dimpstea_locate does with the same t0, and writes
 *   *t       as dimpstea_locate
 *   result   DIMPSTEA_READING numbers
 *   out      the n soft bits: a sign bit that is set means 1 (dimpstea_payload_bits)
 *   scratch  the received steps, each divided by the mean norm g: nsym - 1 complex numbers for each carrier,
 *            carrier after carrier, those of symbols 1 to nsym - 1; then 2 x nc doubles of 0
 * After 24 (g not finite and above 0, as for a silent frame) the scratch holds the steps undivided, the rest of it
 * 0, and nothing else is written. After any other refusal nothing is written. State and memory are only read.
 *
 * Lengths beside those of dimpstea_locate:
 *   drift_len    0, or 2 x nc x (greatest stagger + 32 x (nsym - 1) + 2 x delay + 2) (23 otherwise)
 *   scratch_len  2 x nc x nsym (11 otherwise)
 *   out_len      n (11 otherwise)
 *   result_len   DIMPSTEA_READING (11 otherwise)
 *
 * Without drift rows (drift_len 0) the frame is read from what was filtered as it was fed. With them it is filtered
 * anew from the samples, each turned by its drift value: carrier after carrier, one complex number, its parts within
 * -1 to 1, for each position n from t - delay - 1 up to, not including,
 * t + greatest stagger + 32 x (nsym - 1) + delay + 1. To take out df Hz, the value of a carrier of fc Hz at n is
 * (cos a, sin a) with a = -2 pi x (fc + df) x n / 3000.
 *
 * The t is the one that the reading finds. dimpstea_locate finds it beforehand, given the same t0, state, memory
 * and tables. Given the located t for t0, a reading looks 3 to either side of it again and may find another.
 *
 * With drift rows 22 is also met where t0 is below sample base + delay + 4, so that samples of the frame are no
 * longer kept. With feeds of at most 3,965 samples that can't be so right after the feed that released t0.
 */
uint32_t dimpstea_read(uint32_t bandwidth, uint32_t record,
                       const uint16_t *markers, size_t markers_len,
                       const double *phasors, size_t phasors_len,
                       const uint64_t *state, size_t state_len, double metric,
                       const double *memory, size_t memory_len,
                       uint64_t t0,
                       const double *drift, size_t drift_len,
                       double *scratch, size_t scratch_len,
                       double *out, size_t out_len,
                       uint64_t *t, double *result, size_t result_len);

/*
 * Condition 21. Offers position, with a candidate's metric where has_metric isn't 0, to a hold by itself. Writes the
 * hold after it; *released, *release_position and *release_metric as dimpstea_feed does. hold_len is DIMPSTEA_HOLD.
 */
uint32_t dimpstea_offer(uint64_t *hold, size_t hold_len, double *held_metric,
                        uint64_t position, uint64_t has_metric, double metric,
                        uint64_t *released, uint64_t *release_position, double *release_metric);

/* Conditions 1 2 11. Writes the payload bits that the signs of the soft bits give, a bit a byte; both lengths are n. */
uint32_t dimpstea_payload_bits(uint32_t bandwidth, uint32_t record,
                               const double *soft, size_t soft_len,
                               uint8_t *out, size_t out_len);

/* Conditions 1 2 9. Writes how many bits of the two payloads differ; both lengths are n. */
uint32_t dimpstea_meter(uint32_t bandwidth, uint32_t record,
                        const uint8_t *sent, size_t sent_len,
                        const uint8_t *read, size_t read_len,
                        uint64_t *differing);

/*
 * Condition 26: the median isn't from 0 to 2, or M is 0. M is a reading's median times 10^9, truncated. Writes q, the
 * greatest whole number with 10^q at most M to the 200th power, from 0 to 1,860: 180 - q / 10 is -20 lg of the median in
 * dB, to a tenth. To it the host adds what its SNR has beside the median.
 */
uint32_t dimpstea_decibels(double median, uint32_t *tenths);

/*
 * Condition 25. The residual of a pilot sum, the same on every machine. The sum's parts times 2^20, truncated towards
 * zero, lie at or past one of 3,000 directions, and not yet at the next. Writes
 *   *index      that direction's index, 0 to 2,999: it points at index / 3,000 of a full turn
 *   *residual   in thirty-seconds of a hertz, -1,500 to 1,499: the index, less 3,000 from 1,500 on
 * and, after a refusal, neither. For half a turn it is -1,500.
 */
uint32_t dimpstea_residual(double re, double im, uint32_t *index, int32_t *residual);

/*
 * Conditions 1 to 5, 11. Writes a frame's soft bits, which a reading has carrier by carrier, by symbol and in each symbol
 * by carrier, leaving marks out. The bits of a cell stay together. Every double is copied as it is, with the bits that a
 * NaN has.
 *   markers_len  as for dimpstea_modulate
 *   soft_len     n
 *   out_len      n
 */
uint32_t dimpstea_by_time(uint32_t bandwidth, uint32_t record,
                          const uint16_t *markers, size_t markers_len,
                          const double *soft, size_t soft_len,
                          double *out, size_t out_len);

/* The inverse, with the same conditions and lengths: given what dimpstea_by_time wrote, it writes what that was given. */
uint32_t dimpstea_by_carrier(uint32_t bandwidth, uint32_t record,
                             const uint16_t *markers, size_t markers_len,
                             const double *timed, size_t timed_len,
                             double *out, size_t out_len);

/*
 * Conditions 31 11 32 33. Writes the soft bits of one step in an alphabet of `size` points (2, 4, 8, 16 or 32), the
 * label's high bit first. Steps and alphabets are those of a reading divided by g: points have a size of about 1.
 *   re, im       the step's parts, of at most 2^20 in size
 *   nvar         the noise variance, 0.001 to 2^60
 *   out_len      the bits of a label: 1, 2, 3, 4 or 5
 * A soft bit whose sign bit is set means 1, and its sign bit is the nearest point's bit, the first of equals. A soft bit
 * that is zero, of either sign (x == 0.0), is an erasure: among the points that the demapper compares, one with the
 * other bit is as near as the nearest. In no other case is a soft bit zero.
 */
uint32_t dimpstea_soft_step(size_t size, double re, double im, double nvar,
                            double *out, size_t out_len);

/*
 * Conditions 1 2 29 11 30. Draws a marker table from the 24-bit generator's state, each carrier's row with at most
 * limit draws, 1 to 4,096; *state becomes the state after the last draw. Every call accepts the table. After a refusal,
 * 30 included, *state and out are as they were. out_len is nc x (markers + nsym).
 */
uint32_t dimpstea_draw_markers(uint32_t bandwidth, uint32_t record, uint32_t *state, uint32_t limit,
                               uint16_t *out, size_t out_len);

/*
 * Conditions 31 32. Writes how clear the choice of a step's nearest point is, in an alphabet of `size` points (2, 4, 8, 16
 * or 32):
 *   *label       the label of the nearest point, the first of equals
 *   *distance    its squared distance
 *   *runner_up   the smallest squared distance among the other points: equal to *distance where two are as near, never
 *                infinite
 */
uint32_t dimpstea_nearest_point(size_t size, double re, double im,
                                uint64_t *label, double *distance, double *runner_up);

#ifdef __cplusplus
}
#endif

#endif
