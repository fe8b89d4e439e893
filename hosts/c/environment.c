/* The float environment, tried: runs under each rounding mode, with flush-to-zero and denormals-are-zero set or not, answer and
 * write the bits that they do under the default environment, and the caller's environment is as it was after each call. The same
 * runs by the proved functions themselves, without the guard, must differ: else this would show nothing. It exits with 0 where
 * all is so.
 *
 *     c_environment */
#include "inputs.h"
#include <stdio.h>
#include <xmmintrin.h>

#define DEFAULT 0x1f80u
#define CONTROL 0xffc0u
#define DRAWS 7
#define SAMPLES (MORE1090_SAMPLE_RATE(8) / 100) /* room for either setting */
#define FED 4096 /* samples that a rack takes */

more1090_open_result more1090_proved_open(const uint8_t *, size_t, const float *, size_t, const float *, size_t, float *, size_t,
                                          float *, size_t, float *, size_t);
more1090_run_result more1090_proved_run(more1090_state, const float *, size_t, const float *, size_t, float *, size_t,
                                        const uint8_t *, size_t, const float *, size_t, float *, size_t, uint8_t *, size_t);

more1090_booking_result more1090_proved_booking(const uint8_t *, size_t, const float *, size_t, const float *, size_t,
                                                const uint8_t *, size_t);
more1090_booking_result more1090_proved_booking_part(double, const uint8_t *, size_t, const float *, size_t, const float *,
                                                     size_t, const uint8_t *, size_t);

more1090_single_result more1090_proved_single(const uint8_t *, size_t, const float *, size_t, const float *, size_t,
                                              const uint8_t *, size_t, const float *, size_t, float *, size_t);

more1090_rack_result more1090_proved_rack_open(float *, size_t, const uint64_t *, size_t, const float *, size_t);
more1090_rack_result more1090_proved_rack_run(more1090_rack, float *, size_t, const float *, size_t, float *, size_t);

more1090_tape_open_result more1090_proved_tape_open(const uint8_t *, size_t, float *, size_t, float *, size_t, float *, size_t);
more1090_tape more1090_proved_tape_feed(more1090_tape, const float *, size_t, const float *, size_t, float *, size_t,
                                        const uint8_t *, size_t, const float *, size_t, float *, size_t, uint8_t *, size_t);

/* What a whole run is given. The last draw ends it. */
static unsigned spp;
static size_t draws_length;
static uint8_t settings[MORE1090_SETTINGS_LEN], draws[(DRAWS + 1) * MORE1090_DRAW_LEN];
static float taps_s[MORE1090_MODE_S_TAPS_LEN(8)], taps_ac[MORE1090_MODE_AC_TAPS_LEN(8)], noise[2 * SAMPLES];
#define GIVEN settings, sizeof settings, taps_s, MORE1090_MODE_S_TAPS_LEN(spp), taps_ac, MORE1090_MODE_AC_TAPS_LEN(spp)

/* What it answers and writes. */
typedef struct outcome {
    uint64_t refusals[2], stop;
    more1090_state state;
    more1090_booking_result booking, part;
    more1090_single_result single;
    float output[2 * SAMPLES], alone[2 * SAMPLES];
    uint8_t records[DRAWS * MORE1090_RECORD_LEN];
    uint64_t rack_refusals[2];
    float feed[2 * FED];
    more1090_tape tape;
    float tape_output[2 * SAMPLES + 2];
    uint8_t tape_records[(DRAWS + 1) * MORE1090_RECORD_LEN];
} outcome;
static outcome wanted, found;

static int failed = 0;

static unsigned control(void) { return _mm_getcsr() & CONTROL; }

static void given_back(unsigned word) {
    if (control() != word) {
        _mm_setcsr(DEFAULT);
        fprintf(stderr, "the environment %04x was not given back\n", word);
        failed = 1;
    }
}

/* A feed of what the run wrote first, one sample late, with a gain that makes its products round. */
static void run_rack(unsigned word, int guarded, outcome *to) {
    static float held[MORE1090_RACK_MEMORY_LEN];
    const uint64_t delay = 1;
    const float gain = 0.3f;
    more1090_rack_result k =
        (guarded ? more1090_rack_open : more1090_proved_rack_open)(held, MORE1090_RACK_MEMORY_LEN, &delay, 1, &gain, 1);
    given_back(word);
    to->rack_refusals[0] = k.refusal;
    k = (guarded ? more1090_rack_run : more1090_proved_rack_run)(k.rack, held, MORE1090_RACK_MEMORY_LEN, to->output, 2 * FED,
                                                                 to->feed, 2 * FED);
    given_back(word);
    to->rack_refusals[1] = k.refusal;
}

/* The same run as a tape. */
static void run_tape(unsigned word, int guarded, outcome *to) {
    static uint8_t head[MORE1090_LONGEST_HEAD_LEN];
    static float mode_s[MORE1090_PROTOTYPE_LEN(8)], mode_ac[MORE1090_PROTOTYPE_LEN(8)], memory[MORE1090_MEMORY_LEN(8)];
    const size_t of_prototype = MORE1090_PROTOTYPE_LEN(spp), of_memory = MORE1090_MEMORY_LEN(spp);
    const size_t length = make_head(head, settings, taps_s, taps_ac, spp, draws, (uint32_t)(draws_length / MORE1090_DRAW_LEN), 0);
    const more1090_tape_open_result o = (guarded ? more1090_tape_open : more1090_proved_tape_open)(
        head, length, mode_s, of_prototype, mode_ac, of_prototype, memory, of_memory);
    given_back(word);
    to->tape = (guarded ? more1090_tape_feed : more1090_proved_tape_feed)(
        o.tape, mode_s, of_prototype, mode_ac, of_prototype, memory, of_memory, head + o.draws_at, draws_length, noise, 2 * SAMPLES,
        to->tape_output, 2 * SAMPLES + 2, to->tape_records, sizeof to->tape_records);
    given_back(word);
}

static void run(unsigned word, int guarded, outcome *to) {
    static float mode_s[MORE1090_PROTOTYPE_LEN(8)], mode_ac[MORE1090_PROTOTYPE_LEN(8)], memory[MORE1090_MEMORY_LEN(8)];
    const size_t of_prototype = MORE1090_PROTOTYPE_LEN(spp), of_memory = MORE1090_MEMORY_LEN(spp);
    memset(to, 0, sizeof *to);
    _mm_setcsr(word);
    more1090_open_result o = (guarded ? more1090_open : more1090_proved_open)(GIVEN, mode_s, of_prototype, mode_ac, of_prototype,
                                                                              memory, of_memory);
    given_back(word);
    more1090_run_result r = (guarded ? more1090_run : more1090_proved_run)(
        o.state, mode_s, of_prototype, mode_ac, of_prototype, memory, of_memory, draws, draws_length, noise, 2 * SAMPLES,
        to->output, 2 * SAMPLES, to->records, sizeof to->records);
    given_back(word);
    to->booking = (guarded ? more1090_booking : more1090_proved_booking)(GIVEN, draws, draws_length);
    given_back(word);
    to->part = (guarded ? more1090_booking_part : more1090_proved_booking_part)(0.1, GIVEN, draws, draws_length - MORE1090_DRAW_LEN);
    given_back(word);
    to->single = (guarded ? more1090_single : more1090_proved_single)(GIVEN, draws, MORE1090_DRAW_LEN, noise, 2 * o.state.total,
                                                                      to->alone, 2 * o.state.total);
    given_back(word);
    run_rack(word, guarded, to);
    run_tape(word, guarded, to);
    _mm_setcsr(DEFAULT);
    to->refusals[0] = o.refusal;
    to->refusals[1] = r.refusal;
    to->stop = r.stop;
    to->state = r.state;
}

/* The worked tape of SPECIFICATION 11.3: its draws are of types 2, 6 and 2, and all else is 0. */
static void make_worked(void) {
    const uint32_t nanoseconds = 1000000;
    const uint16_t data = 3584;
    const float level = 0.5f;
    const double gaps[3] = {100.0, 50.5, 1e6};
    memset(settings, 0, sizeof settings);
    put(settings + 8, &nanoseconds, 4);
    for (int k = 0; k < 7; k++)
        put_f64(settings + 12 + 8 * k, 1.0);
    put(settings + 119, &level, 4);
    settings[MORE1090_SETTINGS_LEN - 1] = (uint8_t)spp;
    memset(taps_s, 0, sizeof taps_s);
    memset(taps_ac, 0, sizeof taps_ac);
    taps_s[0] = taps_ac[0] = 1.0f;
    memset(noise, 0, sizeof noise);
    memset(draws, 0, sizeof draws);
    for (int k = 0; k < 3; k++) {
        uint8_t *to = put_f64(draws + k * MORE1090_DRAW_LEN, gaps[k]);
        *to = k == 1 ? 6 : 2;
    }
    draws[45] = 1; /* the first draw's format pick */
    put(draws + MORE1090_DRAW_LEN + 62, &data, 2);
    draws_length = 3 * MORE1090_DRAW_LEN;
}

/* A reply of each type in noise. */
static void make_plain(void) {
    make_settings(settings, 0.5f, spp);
    make_taps(taps_s, MORE1090_MODE_S_TAPS_LEN(spp), spp);
    make_taps(taps_ac, MORE1090_MODE_AC_TAPS_LEN(spp), spp);
    for (unsigned n = 0; n <= DRAWS; n++)
        make_draw(draws + n * MORE1090_DRAW_LEN, n, spp);
    put_f64(draws + DRAWS * MORE1090_DRAW_LEN, SAMPLES);
    draws_length = sizeof draws;
    for (int k = 0; k < 2 * SAMPLES; k++)
        noise[k] = (float)(k % 7) - 3;
}

/* The same, so that most steps meet subnormal numbers: rates of the least f64, an offset of so few Hz, from a phase of 0, that
 * sines are subnormal as f32, and noise of 1e-40. */
static void make_faint(double offset) {
    const uint8_t constant = 0;
    make_plain();
    for (int k = 0; k < 7; k++)
        put_f64(settings + 12 + 8 * k, 5e-324);
    put_f64(settings + 69, offset);
    put(settings + 85, &constant, 1);
    for (int k = 0; k < 2 * SAMPLES; k++)
        noise[k] *= 1e-40f;
}

/* All cases at one setting: at each of them no run differs, and of those without the guard so many do that they show something. */
static void check_runs(unsigned samples_per_pulse) {
    const double offsets[] = {1e-38, 1e-35, 1e-32};
    unsigned runs = 0, differ = 0, unguarded = 0;
    spp = samples_per_pulse;
    for (int c = 0; c < 5; c++) {
        if (c == 0)
            make_worked();
        else if (c == 1)
            make_plain();
        else
            make_faint(offsets[c - 2]);
        run(DEFAULT, 1, &wanted);
        if (wanted.refusals[0] || wanted.refusals[1] || wanted.stop != MORE1090_STOP_DONE || wanted.single.refusal ||
            wanted.tape.stop != MORE1090_STOP_DONE) {
            fprintf(stderr, "case %d at %u samples per pulse does not run to its end\n", c, spp);
            failed = 1;
        }
        for (unsigned k = 0; k < 16; k++) {
            const unsigned word = DEFAULT | (k & 3) << 13 | (k & 4 ? 0x8000u : 0) | (k & 8 ? 0x40u : 0);
            run(word, 1, &found);
            runs++;
            differ += memcmp(&wanted, &found, sizeof wanted) != 0;
            run(word, 0, &found);
            unguarded += memcmp(&wanted, &found, sizeof wanted) != 0;
        }
    }
    printf("environment at %u samples per pulse: %u runs, %u differ; without the guard %u\n", spp, runs, differ, unguarded);
    if (differ || unguarded < runs / 2)
        failed = 1;
}

int main(void) {
    check_runs(4);
    check_runs(8);
    return failed;
}
