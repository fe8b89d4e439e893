/* What the programs here lend: settings, filter taps and draws, as the header lays them out; spp is the samples per pulse. */
#include "more1090_generator.h"
#include <math.h>
#include <string.h>

/* Numbers are packed little-endian, as this machine has them. */
static uint8_t *put(uint8_t *to, const void *value, size_t bytes) {
    memcpy(to, value, bytes);
    return to + bytes;
}

static uint8_t *put_f64(uint8_t *to, double x) { return put(to, &x, 8); }

/* 10 ms, a rate for every type, distributions (the carrier 50 kHz off, the phase as drawn, the clock right), the trigger level
 * and the samples per pulse. */
static void make_settings(uint8_t *to, float trigger_level, unsigned spp) {
    const uint64_t seconds = 0;
    const uint32_t nanoseconds = 10000000;
    const uint8_t kinds[3] = {0, 1, 0};
    const double firsts[3] = {50e3, 0.0, 0.0};
    to = put(to, &seconds, 8);
    to = put(to, &nanoseconds, 4);
    for (int k = 0; k < 7; k++)
        to = put_f64(to, 1000.0 / 7);
    for (int k = 0; k < 3; k++) {
        to = put(to, &kinds[k], 1);
        to = put_f64(to, firsts[k]);
        to = put_f64(to, 0.0);
    }
    to = put(to, &trigger_level, 4);
    *to = (uint8_t)spp;
}

/* A lowpass of sum 1: a raised cosine of 128 taps in the middle, and twice as many at 8 samples per pulse. */
static void make_taps(float *taps, size_t length, unsigned spp) {
    const size_t wide = spp == 8 ? 256 : 128;
    for (size_t k = 0; k < length; k++)
        taps[k] = 0.0f;
    for (size_t k = 0; k < wide; k++)
        taps[length / 2 - wide / 2 + k] = (float)((1 - cos(2 * acos(-1.0) * (k + 0.5) / wide)) / wide);
}

/* The draw of reply n: 1 ms after the last one. Fields that are not set are 0. */
static void make_draw(uint8_t *to, unsigned n, unsigned spp) {
    const uint8_t type = n % 7, overlay = 17;
    const float amplitude = 0.02f;
    const uint16_t data = 01200; /* four octal digits */
    memset(to, 0, MORE1090_DRAW_LEN);
    to = put_f64(to, MORE1090_SAMPLE_RATE(spp) / 1000);
    to = put(to, &type, 1);
    to = put_f64(to, 81.9); /* dB Hz; for the record only */
    to = put(to, &amplitude, 4);
    to = put_f64(to, 0.0); /* carrier: constant */
    to = put_f64(to, n % 6 - 2.5);
    to = put_f64(to, 0.0); /* clock: constant */
    to = put(to + 2, &overlay, 1); /* after the two picks */
    for (int k = 0; k < 14; k++)
        *to++ = (uint8_t)(16 * n + k);
    put(to, &data, 2);
}

/* Gives a draw a level in tenths of a decibel, as C/N0 and as amplitude. Answers 0; or the refusal, and then leaves the draw. */
static inline uint64_t set_level(uint8_t *draw, uint64_t tenths) {
    float amplitude;
    const uint64_t refusal = more1090_level(tenths, &amplitude);
    if (refusal == MORE1090_OK)
        put(put_f64(draw + 9, (double)tenths / 10), &amplitude, 4);
    return refusal;
}

static inline uint8_t *put_section(uint8_t *to, uint32_t count, const void *values, size_t bytes) {
    return put(put(to, &count, 4), values, bytes);
}

/* The head of a tape: settings, taps, draws and the count of the noise. Answers its length, MORE1090_LONGEST_HEAD_LEN at most. */
static inline size_t make_head(uint8_t *to, const uint8_t *settings, const float *taps_s, const float *taps_ac, unsigned spp,
                               const uint8_t *draws, uint32_t count, uint32_t noise) {
    const size_t of_s = MORE1090_MODE_S_TAPS_LEN(spp), of_ac = MORE1090_MODE_AC_TAPS_LEN(spp);
    uint8_t *at = put_section(to, 1, settings, MORE1090_SETTINGS_LEN);
    at = put_section(at, (uint32_t)(of_s + of_ac), taps_s, 4 * of_s);
    at = put(at, taps_ac, 4 * of_ac);
    at = put_section(at, count, draws, count * MORE1090_DRAW_LEN);
    return (size_t)(put(at, &noise, 4) - to);
}
