/* The library's calls as callers reach them: in the default float environment, and by the code that is compiled for the processor at
 * hand.
 *
 * The environment: rounding to nearest, ties to even, subnormal numbers kept, no traps. The proofs are about that arithmetic. A
 * caller may have set its thread otherwise (a program linked with -ffast-math flushes subnormal numbers from its start). So each
 * function whose answer depends on float arithmetic is reached through here: where the environment is the default one, the call goes
 * straight on, with nothing copied; else the default is set for the time of the call, and the caller's is given back.
 *
 * The processor: these functions are in the archive twice, compiled from one proved source for x86-64-v2 and for x86-64-v3, whose
 * processors have AVX2 and take twice as many numbers at once. When a program or a shared library with them is loaded, the one for its
 * processor is chosen. The answers are the same bits: both do the same operations in the same order, and none is contracted.
 *
 * tools/library renames the proved functions to more1090_proved_NAME and more1090_proved_v3_NAME; ONLY_V2 leaves the second out. What
 * stands here is assumed and tried, not proved (docs/TRUST.md; hosts/c/environment.c, hosts/c/processor.c and
 * hosts/tries/processor.sh try it). */
#include "more1090_generator.h"
#include <cpuid.h>
#include <xmmintrin.h>

/* The processor's control and status word (MXCSR) at a program's start: rounding to nearest, every trap masked, and neither
 * flush-to-zero nor denormals-are-zero. Its six lowest bits, sticky flags of what happened, are not compared: nothing depends on
 * them. */
#define DEFAULT 0x1f80

#ifdef ONLY_V2
#define CHOSEN(type, name, parameters) __attribute__((visibility("hidden"))) type (*more1090_chosen_##name) parameters = more1090_proved_##name;
#else
/* The bits of all of `features` are set. */
static int all_of(unsigned register_, unsigned features) { return (register_ & features) == features; }

/* Has the processor all that x86-64-v3 may use, and does the system keep the upper halves of its wide registers? */
static int finds_v3(void) {
    unsigned a, b, c, d;
    if (!__get_cpuid(1, &a, &b, &c, &d) || !all_of(c, bit_FMA | bit_MOVBE | bit_OSXSAVE | bit_AVX | bit_F16C)) return 0;
    __asm__("xgetbv" : "=a"(a), "=d"(d) : "c"(0));
    if (!all_of(a, 6)) return 0;
    if (!__get_cpuid_count(7, 0, &a, &b, &c, &d) || !all_of(b, bit_BMI | bit_AVX2 | bit_BMI2)) return 0;
    return __get_cpuid(0x80000001, &a, &b, &c, &d) && all_of(c, bit_LZCNT);
}

/* The same, found out once: an answer takes some microseconds on a virtual machine. */
static int has_v3(void) {
    static int known, answer;
    if (!known) {
        answer = finds_v3();
        known = 1;
    }
    return answer;
}

/* The function that is called: for x86-64-v2 until the choice is made, which is before `main`. */
#define CHOSEN(type, name, parameters)                                                                       \
    type more1090_proved_v3_##name parameters;                                                               \
    __attribute__((visibility("hidden"))) type (*more1090_chosen_##name) parameters = more1090_proved_##name; \
    static __attribute__((constructor)) void choose_##name(void) {                                           \
        if (has_v3()) more1090_chosen_##name = more1090_proved_v3_##name;                                    \
    }
#endif

/* Declares the proved functions; defines the choice between them; the function that callers reach, a test and a jump; and the one that
 * sets and restores. */
#define GUARDED(type, name, parameters, arguments)                   \
    type more1090_proved_##name parameters;                          \
    CHOSEN(type, name, parameters)                                   \
    __asm__(".text\n"                                                \
            ".globl more1090_" #name "\n"                            \
            ".type more1090_" #name ", @function\n"                  \
            "more1090_" #name ":\n"                                  \
            "    stmxcsr -4(%rsp)\n"                                 \
            "    movl -4(%rsp), %eax\n"                              \
            "    andl $0xffc0, %eax\n"                               \
            "    cmpl $0x1f80, %eax\n"                               \
            "    jne 1f\n"                                           \
            "    jmp *more1090_chosen_" #name "(%rip)\n"             \
            "1:  jmp more1090_guarded_" #name "@PLT\n"               \
            ".size more1090_" #name ", . - more1090_" #name "\n");   \
    type more1090_guarded_##name parameters;                         \
    type more1090_guarded_##name parameters {                        \
        const unsigned own = _mm_getcsr();                           \
        _mm_setcsr(DEFAULT);                                         \
        const type answer = more1090_chosen_##name arguments;        \
        _mm_setcsr(own);                                             \
        return answer;                                               \
    }

GUARDED(more1090_open_result, open,
        (const uint8_t *settings, size_t settings_length, const float *taps_s, size_t taps_s_length, const float *taps_ac,
         size_t taps_ac_length, float *mode_s, size_t mode_s_length, float *mode_ac, size_t mode_ac_length, float *memory,
         size_t memory_length),
        (settings, settings_length, taps_s, taps_s_length, taps_ac, taps_ac_length, mode_s, mode_s_length, mode_ac,
         mode_ac_length, memory, memory_length))

GUARDED(more1090_run_result, run,
        (more1090_state state, const float *mode_s, size_t mode_s_length, const float *mode_ac, size_t mode_ac_length,
         float *memory, size_t memory_length, const uint8_t *draws, size_t draws_length, const float *noise,
         size_t noise_length, float *output, size_t output_length, uint8_t *records, size_t records_length),
        (state, mode_s, mode_s_length, mode_ac, mode_ac_length, memory, memory_length, draws, draws_length, noise, noise_length,
         output, output_length, records, records_length))

GUARDED(more1090_tape_open_result, tape_open,
        (const uint8_t *head, size_t head_length, float *mode_s, size_t mode_s_length, float *mode_ac, size_t mode_ac_length,
         float *memory, size_t memory_length),
        (head, head_length, mode_s, mode_s_length, mode_ac, mode_ac_length, memory, memory_length))

GUARDED(more1090_tape, tape_feed,
        (more1090_tape tape, const float *mode_s, size_t mode_s_length, const float *mode_ac, size_t mode_ac_length,
         float *memory, size_t memory_length, const uint8_t *draws, size_t draws_length, const float *noise,
         size_t noise_length, float *output, size_t output_length, uint8_t *records, size_t records_length),
        (tape, mode_s, mode_s_length, mode_ac, mode_ac_length, memory, memory_length, draws, draws_length, noise, noise_length,
         output, output_length, records, records_length))

GUARDED(more1090_rack_result, rack_open,
        (float *memory, size_t memory_length, const uint64_t *delays, size_t delays_length, const float *gains,
         size_t gains_length),
        (memory, memory_length, delays, delays_length, gains, gains_length))

GUARDED(more1090_rack_result, rack_run,
        (more1090_rack rack, float *memory, size_t memory_length, const float *samples, size_t samples_length, float *room,
         size_t room_length),
        (rack, memory, memory_length, samples, samples_length, room, room_length))

GUARDED(more1090_booking_result, booking,
        (const uint8_t *settings, size_t settings_length, const float *taps_s, size_t taps_s_length, const float *taps_ac,
         size_t taps_ac_length, const uint8_t *draws, size_t draws_length),
        (settings, settings_length, taps_s, taps_s_length, taps_ac, taps_ac_length, draws, draws_length))

GUARDED(more1090_booking_result, booking_part,
        (double time, const uint8_t *settings, size_t settings_length, const float *taps_s, size_t taps_s_length,
         const float *taps_ac, size_t taps_ac_length, const uint8_t *draws, size_t draws_length),
        (time, settings, settings_length, taps_s, taps_s_length, taps_ac, taps_ac_length, draws, draws_length))

GUARDED(more1090_single_result, single,
        (const uint8_t *settings, size_t settings_length, const float *taps_s, size_t taps_s_length, const float *taps_ac,
         size_t taps_ac_length, const uint8_t *draw, size_t draw_length, const float *noise, size_t noise_length, float *output,
         size_t output_length),
        (settings, settings_length, taps_s, taps_s_length, taps_ac, taps_ac_length, draw, draw_length, noise, noise_length,
         output, output_length))
