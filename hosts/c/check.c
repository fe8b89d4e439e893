/* What the header says of lengths, tried at 4 and at 8 samples per pulse: a pointer lent with length 0 may be NULL; settings of
 * another length are refused 9 and another number of samples per pulse 15, before anything else is looked at, by a booking and
 * one reply alone too; then prototypes and working memory of another length. And what it says of levels that are refused, of a
 * tape's head, run and ending, and of stored runs: read back bit for bit, and refused wherever a bit has changed or bytes are
 * cut. It exits with 0 where all is so.
 *
 *     c_check */
#include "inputs.h"
#include <stdio.h>

static int failed = 0;
static unsigned spp = 4;

static void expect(const char *what, uint64_t wanted, uint64_t found) {
    if (wanted != found) {
        fprintf(stderr, "%s, %u samples per pulse: %llu wanted, %llu found\n", what, spp, (unsigned long long)wanted,
                (unsigned long long)found);
        failed = 1;
    }
}

static uint8_t settings[MORE1090_SETTINGS_LEN + 5];
static float taps_s[MORE1090_MODE_S_TAPS_LEN(8)], taps_ac[MORE1090_MODE_AC_TAPS_LEN(8)];
static float mode_s[MORE1090_PROTOTYPE_LEN(8)], mode_ac[MORE1090_PROTOTYPE_LEN(8)], memory[MORE1090_MEMORY_LEN(8)];

/* What is lent, as far as the samples per pulse ask for it. */
#define ALL_TAPS_S taps_s, MORE1090_MODE_S_TAPS_LEN(spp)
#define ALL_TAPS_AC taps_ac, MORE1090_MODE_AC_TAPS_LEN(spp)
#define ALL_MODE_S mode_s, MORE1090_PROTOTYPE_LEN(spp)
#define ALL_MODE_AC mode_ac, MORE1090_PROTOTYPE_LEN(spp)
#define ALL_MEMORY memory, MORE1090_MEMORY_LEN(spp)

/* The refusal of an opening that is lent all, but for what is named: that is NULL. */
static uint64_t opened_without(const void *none) {
#define OR_NULL(list, length) (none == (list) ? NULL : (list)), (none == (list) ? 0 : (length))
    return more1090_open(OR_NULL(settings, MORE1090_SETTINGS_LEN), OR_NULL(taps_s, MORE1090_MODE_S_TAPS_LEN(spp)),
                         OR_NULL(taps_ac, MORE1090_MODE_AC_TAPS_LEN(spp)), OR_NULL(mode_s, MORE1090_PROTOTYPE_LEN(spp)),
                         OR_NULL(mode_ac, MORE1090_PROTOTYPE_LEN(spp)), OR_NULL(memory, MORE1090_MEMORY_LEN(spp)))
        .refusal;
}

/* The refusal of an opening that is lent prototypes and memory of these lengths. */
static uint64_t opened_on(size_t of_s, size_t of_ac, size_t of_memory) {
    return more1090_open(settings, MORE1090_SETTINGS_LEN, ALL_TAPS_S, ALL_TAPS_AC, mode_s, of_s, mode_ac, of_ac, memory, of_memory)
        .refusal;
}

/* The refusal of an opening that is lent all, in the lengths of these samples per pulse: those of the taps, and of the rest. */
static uint64_t opened_at(unsigned of_taps, unsigned of_rest) {
    return more1090_open(settings, MORE1090_SETTINGS_LEN, taps_s, MORE1090_MODE_S_TAPS_LEN(of_taps), taps_ac,
                         MORE1090_MODE_AC_TAPS_LEN(of_taps), mode_s, MORE1090_PROTOTYPE_LEN(of_rest), mode_ac,
                         MORE1090_PROTOTYPE_LEN(of_rest), memory, MORE1090_MEMORY_LEN(of_rest))
        .refusal;
}

static void check_opening(void) {
    const size_t lengths[] = {0, 119, 123, 125, 129};
    const uint8_t others[] = {0, 2, 5, 16, 255};
    const unsigned there = 12 - spp; /* the other setting */
    const size_t prototype = MORE1090_PROTOTYPE_LEN(spp), other = MORE1090_PROTOTYPE_LEN(there);
    const uint32_t second = 1000000000;
    expect("no settings", MORE1090_ERR_LENGTH, opened_without(settings));
    expect("no Mode S prototype", MORE1090_ERR_LENGTH, opened_without(mode_s));
    expect("no Mode A/C prototype", MORE1090_ERR_LENGTH, opened_without(mode_ac));
    expect("no memory", MORE1090_ERR_LENGTH, opened_without(memory));
    expect("no Mode S taps", MORE1090_ERR_TAPS, opened_without(taps_s));
    expect("no Mode A/C taps", MORE1090_ERR_TAPS, opened_without(taps_ac));
    expect("nothing", MORE1090_ERR_LENGTH, more1090_open(NULL, 0, NULL, 0, NULL, 0, NULL, 0, NULL, 0, NULL, 0).refusal);
    make_settings(settings, 0.05f, spp);
    expect("a trigger level below 0.1", MORE1090_ERR_TRIGGER_LEVEL, opened_without(taps_s));
    make_settings(settings, 0.9f, spp);
    expect("a trigger level of 0.9", MORE1090_OK, opened_without(NULL));
    expect("a shorter memory", MORE1090_ERR_LENGTH, opened_on(prototype, prototype, MORE1090_MEMORY_LEN(spp) - 1));
    expect("the other setting's memory", MORE1090_ERR_LENGTH, opened_on(prototype, prototype, MORE1090_MEMORY_LEN(there)));
    expect("the other setting's Mode S prototype", MORE1090_ERR_LENGTH, opened_on(other, prototype, MORE1090_MEMORY_LEN(spp)));
    expect("the other setting's Mode A/C prototype", MORE1090_ERR_LENGTH, opened_on(prototype, other, MORE1090_MEMORY_LEN(spp)));
    expect("the other setting's taps", MORE1090_ERR_TAPS, opened_at(there, spp));
    expect("the other setting's prototypes and memory", MORE1090_ERR_LENGTH, opened_at(spp, there));
    expect("all lengths of the other setting", MORE1090_ERR_LENGTH, opened_at(there, there));
    put(settings + 8, &second, 4); /* refusal 1, where it is read */
    expect("nanoseconds", MORE1090_ERR_DURATION, opened_without(NULL));
    for (int k = 0; k < 5; k++)
        expect("settings of another length", MORE1090_ERR_LENGTH,
               more1090_open(settings, lengths[k], ALL_TAPS_S, ALL_TAPS_AC, ALL_MODE_S, ALL_MODE_AC, ALL_MEMORY).refusal);
    for (int k = 0; k < 5; k++) {
        settings[MORE1090_SETTINGS_LEN - 1] = others[k];
        expect("other samples per pulse", MORE1090_ERR_SAMPLES_PER_PULSE, opened_without(memory));
    }
    settings[MORE1090_SETTINGS_LEN - 1] = (uint8_t)there;
    expect("the other setting, with this one's lengths", MORE1090_ERR_LENGTH, opened_at(spp, spp));
    expect("the other setting, with its own", MORE1090_ERR_DURATION, opened_at(there, there));
}

static uint8_t draws[2 * MORE1090_DRAW_LEN], records[MORE1090_RECORD_LEN];
static float noise[2], output[400];

/* A call that is lent prototypes and memory, and of the rest so many bytes or floats: where none, NULL. */
static more1090_run_result called(more1090_state state, size_t d, size_t n, size_t o, size_t r) {
    return more1090_run(state, ALL_MODE_S, ALL_MODE_AC, ALL_MEMORY, d == 0 ? NULL : draws, d, n == 0 ? NULL : noise, n,
                        o == 0 ? NULL : output, o, r == 0 ? NULL : records, r);
}

static void check_calls(void) {
    make_settings(settings, 0.5f, spp);
    make_draw(draws, 0, spp);
    make_draw(draws + MORE1090_DRAW_LEN, 1, spp);
    const more1090_state state =
        more1090_open(settings, MORE1090_SETTINGS_LEN, ALL_TAPS_S, ALL_TAPS_AC, ALL_MODE_S, ALL_MODE_AC, ALL_MEMORY).state;
    expect("samples of the run", MORE1090_SAMPLE_RATE(spp) / 100, state.total);
    expect("its samples per pulse", spp, state.samples_per_pulse);
    expect("no draws, no noise, no records", MORE1090_STOP_WANTS_DRAWS, called(state, 0, 0, 400, 0).stop);
    expect("no noise", MORE1090_STOP_WANTS_NOISE, called(state, sizeof draws, 0, 400, sizeof records).stop);
    expect("no output", MORE1090_ERR_LENGTH, called(state, sizeof draws, 2, 0, sizeof records).refusal);
    expect("noise for one sample", 1, called(state, sizeof draws, 2, 400, 0).samples_written);
    put_f64(draws, 40.0); /* a first reply that starts within the samples held back: its record comes before any sample */
    expect("no records", MORE1090_STOP_RECORDS_FULL, called(state, sizeof draws, 2, 400, 0).stop);
    /* a reply's whole count belongs to the call that takes its draw */
    const more1090_run_result added = called(state, MORE1090_DRAW_LEN, 0, 400, sizeof records);
    expect("a draw taken", 1, added.draws_taken);
    expect("its samples", 0, added.samples_written);
    expect("its samples added", records[49] + 256 * records[50], added.samples_added_low);
    expect("their high half", 0, added.samples_added_high);
    put_f64(draws, 200.0);
    const more1090_run_result written = called(added.state, MORE1090_DRAW_LEN, 2, 400, 0);
    expect("a sample written later", 1, written.samples_written);
    expect("nothing added", 0, written.samples_added_low);
    expect("refused", 0, called(added.state, 1, 2, 400, sizeof records).samples_added_low);
    expect("nothing", MORE1090_ERR_LENGTH,
           more1090_run(state, NULL, 0, NULL, 0, NULL, 0, NULL, 0, NULL, 0, NULL, 0, NULL, 0).refusal);
    more1090_state forged = state;
    forged.samples_per_pulse = 12 - spp;
    expect("the other setting's lengths", MORE1090_ERR_LENGTH, called(forged, sizeof draws, 2, 400, sizeof records).refusal);
    forged.samples_per_pulse = 5;
    expect("a state of 5 samples per pulse", spp == 4 ? MORE1090_OK : MORE1090_ERR_LENGTH,
           called(forged, sizeof draws, 2, 400, sizeof records).refusal);
    expect("which comes back with 4", 4, called(forged, sizeof draws, 2, 400, sizeof records).state.samples_per_pulse);
}

static more1090_booking_result booked(size_t settings_length, size_t taps, size_t d) {
    return more1090_booking(settings_length == 0 ? NULL : settings, settings_length, taps == 0 ? NULL : taps_s, taps, taps_ac,
                            MORE1090_MODE_AC_TAPS_LEN(spp), d == 0 ? NULL : draws, d);
}

static void check_booking(void) {
    make_settings(settings, 0.5f, spp);
    make_draw(draws, 0, spp);
    make_draw(draws + MORE1090_DRAW_LEN, 1, spp);
    const size_t taps = MORE1090_MODE_S_TAPS_LEN(spp);
    const more1090_booking_result none = booked(MORE1090_SETTINGS_LEN, taps, 0);
    expect("a booking of no draws", MORE1090_OK, none.refusal);
    expect("its samples", MORE1090_SAMPLE_RATE(spp) / 100, none.samples);
    expect("its noise values", 2 * none.samples, none.noise);
    expect("its draws ran out", 0, none.ended + none.draws_taken + none.records);
    expect("a booking with no settings", MORE1090_ERR_LENGTH, booked(0, taps, 0).refusal);
    expect("a booking with no taps", MORE1090_ERR_TAPS, booked(MORE1090_SETTINGS_LEN, 0, 0).refusal);
    expect("a booking of a draw and a byte", MORE1090_ERR_LENGTH,
           booked(MORE1090_SETTINGS_LEN, taps, MORE1090_DRAW_LEN + 1).refusal);
    expect("a booking of nothing", MORE1090_ERR_LENGTH, more1090_booking(NULL, 0, NULL, 0, NULL, 0, NULL, 0).refusal);
    const more1090_booking_result two = booked(MORE1090_SETTINGS_LEN, taps, sizeof draws);
    const more1090_booking_result first = booked(MORE1090_SETTINGS_LEN, taps, MORE1090_DRAW_LEN);
    const more1090_booking_result second = more1090_booking_part(first.time, settings, MORE1090_SETTINGS_LEN, ALL_TAPS_S,
                                                                 ALL_TAPS_AC, draws + MORE1090_DRAW_LEN, MORE1090_DRAW_LEN);
    expect("records in parts", two.records, first.records + second.records);
    expect("draws taken in parts", two.draws_taken, first.draws_taken + second.draws_taken);
    settings[MORE1090_SETTINGS_LEN - 1] = 5;
    expect("a booking at 5 samples per pulse", MORE1090_ERR_SAMPLES_PER_PULSE, booked(MORE1090_SETTINGS_LEN, 0, 1).refusal);
}

static more1090_single_result alone(size_t settings_length, size_t d, size_t n, size_t o) {
    return more1090_single(settings_length == 0 ? NULL : settings, settings_length, ALL_TAPS_S, ALL_TAPS_AC, d == 0 ? NULL : draws,
                           d, n == 0 ? NULL : noise, n, o == 0 ? NULL : output, o);
}

static void check_single(void) {
    const uint32_t none = spp == 8 ? 62 : 124, one = none + 1;
    make_settings(settings, 0.5f, spp);
    make_draw(draws, 0, spp);
    put(settings + 8, &none, 4);
    output[0] = 7.0f;
    expect("no samples", MORE1090_OK, alone(MORE1090_SETTINGS_LEN, MORE1090_DRAW_LEN, 0, 0).refusal);
    expect("output of no samples", MORE1090_ERR_STRETCH_LENGTH, alone(MORE1090_SETTINGS_LEN, MORE1090_DRAW_LEN, 0, 2).refusal);
    expect("what it leaves", 7, (uint64_t)output[0]);
    put(settings + 8, &one, 4);
    expect("a sample", MORE1090_OK, alone(MORE1090_SETTINGS_LEN, MORE1090_DRAW_LEN, 2, 2).refusal);
    expect("its noise, and no reply yet", 0, (uint64_t)output[0]);
    expect("no output", MORE1090_ERR_LENGTH, alone(MORE1090_SETTINGS_LEN, MORE1090_DRAW_LEN, 2, 0).refusal);
    expect("odd output", MORE1090_ERR_LENGTH, alone(MORE1090_SETTINGS_LEN, MORE1090_DRAW_LEN, 2, 1).refusal);
    expect("no noise", MORE1090_ERR_STRETCH_LENGTH, alone(MORE1090_SETTINGS_LEN, MORE1090_DRAW_LEN, 0, 2).refusal);
    expect("no draw", MORE1090_ERR_LENGTH, alone(MORE1090_SETTINGS_LEN, 0, 2, 2).refusal);
    expect("two draws", MORE1090_ERR_LENGTH, alone(MORE1090_SETTINGS_LEN, sizeof draws, 2, 2).refusal);
    expect("no settings", MORE1090_ERR_LENGTH, alone(0, MORE1090_DRAW_LEN, 2, 2).refusal);
    settings[MORE1090_SETTINGS_LEN - 1] = 5;
    expect("5 samples per pulse", MORE1090_ERR_SAMPLES_PER_PULSE, alone(MORE1090_SETTINGS_LEN, 0, 0, 1).refusal);
    expect("nothing", MORE1090_ERR_LENGTH, more1090_single(NULL, 0, NULL, 0, NULL, 0, NULL, 0, NULL, 0, NULL, 0).refusal);
}

/* A tape of no samples, one draw and two noise values, of which the head is lent. */
static void check_tape(void) {
    static uint8_t head[MORE1090_LONGEST_HEAD_LEN];
    uint8_t text[MORE1090_TAPE_TEXT_LEN], room[MORE1090_RECORD_LEN];
    const uint32_t none = 0;
    make_settings(settings, 0.5f, spp);
    put(settings + 8, &none, 4);
    make_draw(draws, 0, spp);
    const size_t length = make_head(head, settings, taps_s, taps_ac, spp, draws, 1, 2);
    expect("a head of no bytes", 4 + MORE1090_SETTINGS_LEN, more1090_tape_head_length(NULL, 0));
    expect("a head of its settings", length - MORE1090_DRAW_LEN - 4, more1090_tape_head_length(head, 4 + MORE1090_SETTINGS_LEN));
    expect("a head up to its draws", length, more1090_tape_head_length(head, length - MORE1090_DRAW_LEN - 4));
    expect("a head", length, more1090_tape_head_length(head, length));
    const more1090_tape_open_result o = more1090_tape_open(head, length, ALL_MODE_S, ALL_MODE_AC, ALL_MEMORY);
    expect("a tape", MORE1090_OK, o.tape.refusal);
    expect("its draws", length - MORE1090_DRAW_LEN - 4, o.draws_at);
    expect("how many they are", 1, o.draws);
    expect("its noise", 2, o.noise);
    expect("a head that is a byte short", MORE1090_ERR_TAPE,
           more1090_tape_open(head, length - 1, ALL_MODE_S, ALL_MODE_AC, ALL_MEMORY).tape.refusal);
    expect("no tape", MORE1090_ERR_TAPE, more1090_tape_open(NULL, 0, NULL, 0, NULL, 0, NULL, 0).tape.refusal);
    expect("no buffers", MORE1090_ERR_LENGTH, more1090_tape_open(head, length, NULL, 0, NULL, 0, NULL, 0).tape.refusal);
    const more1090_tape fed = more1090_tape_feed(o.tape, ALL_MODE_S, ALL_MODE_AC, ALL_MEMORY, head + o.draws_at, MORE1090_DRAW_LEN,
                                                 NULL, 0, output, 2, room, sizeof room);
    expect("no samples are done", MORE1090_STOP_DONE, fed.stop);
    expect("a run that is done", MORE1090_OK, more1090_tape_ending(fed, MORE1090_TAPE_WHOLE).refusal);
    expect("bytes left over", MORE1090_ERR_TAPE, more1090_tape_ending(fed, MORE1090_TAPE_LEFT_OVER).refusal);
    expect("a short section", MORE1090_ERR_TAPE, more1090_tape_ending(fed, MORE1090_TAPE_SHORT).refusal);
    expect("any other ending", MORE1090_ERR_TAPE, more1090_tape_ending(fed, UINT64_MAX).refusal);
    expect("a run that was not fed", MORE1090_ERR_TAPE, more1090_tape_ending(o.tape, MORE1090_TAPE_WHOLE).refusal);
    more1090_tape refused = fed;
    refused.refusal = MORE1090_ERR_NOISE;
    expect("a run that is refused stays so", MORE1090_ERR_NOISE,
           more1090_tape_feed(refused, NULL, 0, NULL, 0, NULL, 0, NULL, 0, NULL, 0, NULL, 0, NULL, 0).refusal);
    expect("and ends so", MORE1090_ERR_NOISE, more1090_tape_ending(refused, MORE1090_TAPE_LEFT_OVER).refusal);
    memset(text, 7, sizeof text);
    expect("its text", 10, more1090_tape_text(more1090_tape_ending(refused, MORE1090_TAPE_WHOLE), NULL, 0, text));
    expect("refused and a number", 0, (uint64_t)memcmp(text, "refused 8\n\7", 11));
    expect("a text of no records", 35, more1090_tape_text(more1090_tape_ending(fed, MORE1090_TAPE_WHOLE), NULL, 0, text));
    expect("header and samples", 0, (uint64_t)memcmp(text, "first type count message\nsamples 0\n\7", 36));
}

static uint32_t bits_of(float x) {
    uint32_t bits;
    memcpy(&bits, &x, 4);
    return bits;
}

static void check_levels(void) {
    const uint64_t too_high[] = {2001, 65536, 4294967296, UINT64_MAX};
    float amplitude = 0.0f;
    expect("200.0 dB", MORE1090_OK, more1090_level(MORE1090_HIGHEST_LEVEL, &amplitude));
    expect("its bits", 0x45989680, bits_of(amplitude));
    for (int k = 0; k < 4; k++) {
        expect("a level above 200.0 dB", MORE1090_ERR_LEVEL, more1090_level(too_high[k], &amplitude));
        expect("what it leaves", 0x45989680, bits_of(amplitude));
    }
}

static void check_pages(void) {
    uint8_t record[MORE1090_RECORD_LEN] = {0}, page[MORE1090_PAGE_LEN + 1], message[14];
    record[51] = 14;
    page[MORE1090_PAGE_LEN] = 7;
    expect("no records, no output", 0, more1090_pages(NULL, 0, NULL, 0).pages);
    expect("no output", MORE1090_ERR_LENGTH, more1090_pages(record, sizeof record, NULL, 0).refusal);
    expect("a page", 1, more1090_pages(record, sizeof record, page, sizeof page).pages);
    expect("output behind the page", 7, page[MORE1090_PAGE_LEN]);
    expect("a line read back", 14, more1090_page_line(page, MORE1090_LINE_LEN, message).message_length);
    expect("a blank line", 0, more1090_page_line(page + MORE1090_LINE_LEN + 1, MORE1090_LINE_LEN, message).found);
    expect("no line", 0, more1090_page_line(NULL, 0, message).found);
    record[48] = 7;
    expect("a record of type 7", MORE1090_ERR_RECORD, more1090_pages(record, sizeof record, page, sizeof page).refusal);
}

static void check_logs(void) {
    uint8_t log[MORE1090_ENTRY_LEN] = {7, 0, 0, 0, 0, 0, 0, 0, 2};
    uint8_t sent[MORE1090_RECORD_LEN] = {0};
    uint64_t partners[1] = {5}, owners[1] = {5};
    sent[40] = 9;
    sent[48] = 6;
    sent[51] = 2;
    expect("nothing heard, nothing sent", MORE1090_OK, more1090_compare_log(NULL, 0, NULL, 0, 5, NULL, 0, NULL, 0).refusal);
    expect("no lists", MORE1090_ERR_LENGTH, more1090_compare_log(log, sizeof log, sent, sizeof sent, 5, NULL, 0, NULL, 0).refusal);
    expect("too far", 0, more1090_compare_log(log, sizeof log, sent, sizeof sent, 1, partners, 1, owners, 1).pairs);
    expect("the entry's record", MORE1090_NOBODY, partners[0]);
    expect("the record's entry", MORE1090_NOBODY, owners[0]);
    expect("within 2 samples", 1, more1090_compare_log(log, sizeof log, sent, sizeof sent, 2, partners, 1, owners, 1).pairs);
    expect("the entry's record", 0, partners[0]);
    sent[48] = 7;
    partners[0] = 5;
    expect("a record of type 7", MORE1090_ERR_RECORD,
           more1090_compare_log(log, sizeof log, sent, sizeof sent, 2, partners, 1, owners, 1).refusal);
    expect("what it leaves", 5, partners[0]);
}

/* A rack of one feed that is lent nothing where the length is 0. */
static void check_rack(void) {
    static float held[MORE1090_RACK_MEMORY_LEN];
    const uint64_t delay = 0;
    const float gain = 1;
    const more1090_rack rack = more1090_rack_open(held, MORE1090_RACK_MEMORY_LEN, &delay, 1, &gain, 1).rack;
    expect("rack without memory", MORE1090_ERR_LENGTH, more1090_rack_open(NULL, 0, &delay, 1, &gain, 1).refusal);
    expect("rack without feeds", MORE1090_ERR_FEEDS,
           more1090_rack_open(held, MORE1090_RACK_MEMORY_LEN, NULL, 0, NULL, 0).refusal);
    expect("feeds of the rack", 1, rack.feeds);
    expect("no samples, no room", MORE1090_OK, more1090_rack_run(rack, held, MORE1090_RACK_MEMORY_LEN, NULL, 0, NULL, 0).refusal);
    expect("no memory", MORE1090_ERR_LENGTH, more1090_rack_run(rack, NULL, 0, NULL, 0, NULL, 0).refusal);
}

static uint8_t stored[MORE1090_STORED_RACK_LEN(8) + 1];
static float rack_memory[MORE1090_RACK_MEMORY_LEN], other_rack_memory[MORE1090_RACK_MEMORY_LEN];
static float other_s[MORE1090_PROTOTYPE_LEN(8)], other_ac[MORE1090_PROTOTYPE_LEN(8)], other_memory[MORE1090_MEMORY_LEN(8)];

/* A run read back into buffers of its lengths, from so many of the bytes. */
static more1090_restore_result read_back(size_t length, size_t of_rack) {
    return more1090_restore(stored, length, other_s, MORE1090_PROTOTYPE_LEN(spp), other_ac, MORE1090_PROTOTYPE_LEN(spp), other_memory,
                            MORE1090_MEMORY_LEN(spp), of_rack == 0 ? NULL : other_rack_memory, of_rack);
}

static uint64_t saved(more1090_state state, more1090_rack rack, size_t of_rack, size_t length) {
    return more1090_save(state, ALL_MODE_S, ALL_MODE_AC, ALL_MEMORY, rack, of_rack == 0 ? NULL : rack_memory, of_rack, stored, length);
}

/* The refusal of bytes with the bit changed: by the place of the magic number, the version, the length, or what the check is of. */
static uint64_t refusal_at(size_t bit) {
    const size_t word = bit / 64;
    return word == 0 ? MORE1090_ERR_STORED_FOREIGN : word == 1 ? MORE1090_ERR_STORED_VERSION
         : word == 2 ? MORE1090_ERR_STORED_LENGTH : MORE1090_ERR_STORED_DAMAGED;
}

/* Bits changed, one and two at a time, and bytes cut: each is refused, and nothing is written. */
static void check_damage(size_t length, size_t of_rack) {
    memset(other_memory, 0x55, sizeof other_memory);
    for (size_t bit = 0; bit < 8 * length; bit += bit < 1920 ? 1 : 4099) {
        const size_t second = (bit * 7919 + 12345) % (8 * length);
        stored[bit / 8] ^= 1 << bit % 8;
        expect("a changed bit", refusal_at(bit), read_back(length, of_rack).refusal);
        stored[second / 8] ^= 1 << second % 8;
        if (second != bit && read_back(length, of_rack).refusal < MORE1090_ERR_STORED_LENGTH)
            expect("two changed bits", MORE1090_ERR_STORED_DAMAGED, 0);
        stored[second / 8] ^= 1 << second % 8;
        stored[bit / 8] ^= 1 << bit % 8;
    }
    for (size_t cut = 0; cut < length; cut++)
        expect("bytes cut", MORE1090_ERR_STORED_LENGTH, read_back(cut, of_rack).refusal);
    expect("a byte too many", MORE1090_ERR_STORED_LENGTH, read_back(length + 1, of_rack).refusal);
    for (size_t k = 0; k < sizeof other_memory; k++)
        if (((uint8_t *)other_memory)[k] != 0x55) expect("a refusal writes", 0, 1);
}

static void check_storing(void) {
    const uint64_t delays[] = {0, 4095};
    const float gains[] = {1.0f, 0.5f};
    make_settings(settings, 0.5f, spp);
    make_draw(draws, 0, spp);
    put_f64(draws, 40.0);
    more1090_state state =
        more1090_open(settings, MORE1090_SETTINGS_LEN, ALL_TAPS_S, ALL_TAPS_AC, ALL_MODE_S, ALL_MODE_AC, ALL_MEMORY).state;
    state = called(state, MORE1090_DRAW_LEN, 2, 400, sizeof records).state;
    more1090_rack rack = more1090_rack_open(rack_memory, MORE1090_RACK_MEMORY_LEN, delays, 2, gains, 2).rack;
    for (size_t k = 0; k < MORE1090_RACK_MEMORY_LEN; k++) rack_memory[k] = (float)k;
    const size_t of_racks[] = {0, MORE1090_RACK_MEMORY_LEN}, lengths[] = {MORE1090_STORED_LEN(spp), MORE1090_STORED_RACK_LEN(spp)};
    for (int k = 0; k < 2; k++) {
        expect("saved", MORE1090_OK, saved(state, rack, of_racks[k], lengths[k]));
        const more1090_restore_result r = read_back(lengths[k], of_racks[k]);
        expect("read back", MORE1090_OK, r.refusal);
        expect("the state", 0, memcmp(&state, &r.state, sizeof state) != 0);
        expect("the Mode S prototype", 0, memcmp(mode_s, other_s, 4 * MORE1090_PROTOTYPE_LEN(spp)) != 0);
        expect("the Mode A/C prototype", 0, memcmp(mode_ac, other_ac, 4 * MORE1090_PROTOTYPE_LEN(spp)) != 0);
        expect("the memory", 0, memcmp(memory, other_memory, 4 * MORE1090_MEMORY_LEN(spp)) != 0);
        const more1090_rack none = {0};
        expect("the rack", 0, memcmp(k == 0 ? &none : &rack, &r.rack, sizeof rack) != 0);
        if (k == 1) expect("the rack's memory", 0, memcmp(rack_memory, other_rack_memory, sizeof rack_memory) != 0);
        expect("the other number of racks", MORE1090_ERR_LENGTH, read_back(lengths[k], of_racks[1 - k]).refusal);
        check_damage(lengths[k], of_racks[k]);
        expect("one byte less", MORE1090_ERR_LENGTH, saved(state, rack, of_racks[k], lengths[k] - 1));
        expect("the other length", MORE1090_ERR_LENGTH, saved(state, rack, of_racks[k], lengths[1 - k]));
        expect("a shorter memory of the rack", MORE1090_ERR_LENGTH, saved(state, rack, MORE1090_RACK_MEMORY_LEN - 1, lengths[k]));
    }
    expect("nothing to save", MORE1090_ERR_LENGTH, more1090_save(state, NULL, 0, NULL, 0, NULL, 0, rack, NULL, 0, NULL, 0));
    expect("nothing to read", MORE1090_ERR_STORED_LENGTH, more1090_restore(NULL, 0, NULL, 0, NULL, 0, NULL, 0, NULL, 0).refusal);
}

static void check_runs(unsigned samples_per_pulse) {
    spp = samples_per_pulse;
    make_settings(settings, 0.5f, spp);
    make_taps(ALL_TAPS_S, spp);
    make_taps(ALL_TAPS_AC, spp);
    expect("all that is asked for", MORE1090_OK, opened_without(NULL));
    check_opening();
    check_calls();
    check_booking();
    check_single();
    check_tape();
    check_storing();
}

int main(void) {
    check_runs(8);
    check_runs(4);
    check_levels();
    check_pages();
    check_logs();
    check_rack();
    return failed;
}
