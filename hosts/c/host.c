/* A whole run from C: 10 ms with a reply of each type in turn, 1 ms apart, lent two draws, 300 noise values, 200 samples of
 * output and one record at a time; cf32 out.
 *
 *     c_host [--samples-per-pulse N] [--trigger-level PART] [--sum] [OUT [LEVEL]]
 *
 * OUT (standard output for - or none) gets pairs of f32 once the run is done, standard error a line for each reply. N is 4,
 * which is 8,000,000 samples a second, or 8, which is 16,000,000 (4). PART is the trigger level, 0.1 to 0.9 of a pulse's height
 * (0.5). LEVEL is that of every reply, in dB with one digit after the point or none: 0.0 to 200.0, otherwise 92.2; at 8 samples
 * per pulse there are no levels, and every amplitude is 0.02. --sum prints the checksum of what is written, as `cksum` does,
 * on standard error where OUT is standard output. Exit status: 0 done, 1 refused, 2 wrong use, 3 a file or pipe failed. */
#define _POSIX_C_SOURCE 200809L
#include "inputs.h"
#include <ctype.h>
#include <errno.h>
#include <stdio.h>
#include <stdlib.h>
#include <sys/stat.h>
#include <unistd.h>

enum { DRAWS = 2, NOISE = 300, SAMPLES = 200, LEVEL = 922, ALL_SAMPLES = MORE1090_SAMPLE_RATE(8) / 100, NAME_LEN = 4096 };
enum { DONE, REFUSED, WRONG_USE, FILE_FAILED };

static const char usage[] = "usage: c_host [--samples-per-pulse N] [--trigger-level PART] [--sum] [OUT [LEVEL]]\n";

typedef struct asked {
    unsigned spp;
    float trigger_level;
    uint64_t tenths;
    int sum;
} asked;

/* A sum of twelve uniform values: nearly normal. */
static float noise_value(void) {
    static uint64_t x = 1;
    double sum = -6;
    for (int k = 0; k < 12; k++) {
        x ^= x << 13;
        x ^= x >> 7;
        x ^= x << 17;
        sum += (double)(x >> 11) / 9007199254740992.0;
    }
    return (float)sum;
}

static void print_record(const uint8_t *r) {
    uint64_t first;
    uint16_t count;
    memcpy(&first, r + 40, 8);
    memcpy(&count, r + 49, 2);
    fprintf(stderr, "first %llu type %d count %d message ", (unsigned long long)first, r[48], count);
    if (r[51] == 2) { /* Mode A/C: high byte first, and the squawk, the four octal digits of its data */
        const unsigned word = r[52] | (unsigned)r[53] << 8;
        fprintf(stderr, "%04x squawk %04o\n", word, word & 0xfff);
        return;
    }
    for (int k = 0; k < r[51]; k++)
        fprintf(stderr, "%02x", r[52 + k]);
    /* 0 where it ends in its parity */
    fprintf(stderr, " parity %06x\n", (unsigned)more1090_parity(r + 52, r[51]));
}

static int refused(uint64_t number, uint64_t value) {
    fprintf(stderr, "c_host: refused %llu at %llu\n", (unsigned long long)number, (unsigned long long)value);
    return REFUSED;
}

static int wrong_use(const char *what, const char *word) {
    fprintf(stderr, "c_host: %s: %s\n%s", what, word, usage);
    return WRONG_USE;
}

static int file_failed(const char *name) {
    fprintf(stderr, "c_host: %s: %s\n", name, strerror(errno));
    return FILE_FAILED;
}

/* The tenths of a level in dB, of digits with one after the point or none; 0 where it is no such text. */
static int tenths_of(const char *text, uint64_t *tenths) {
    const size_t whole = strspn(text, "0123456789");
    const char *rest = text + whole;
    if (whole == 0 || whole > 9 || !(*rest == 0 || (*rest == '.' && isdigit((unsigned char)rest[1]) && rest[2] == 0)))
        return 0;
    *tenths = 10 * strtoull(text, NULL, 10) + (*rest == 0 ? 0 : (uint64_t)(rest[1] - '0'));
    return 1;
}

static int number_of(const char *text, float *number) {
    char *end;
    *number = strtof(text, &end);
    return end != text && *end == 0 && !isspace((unsigned char)*text);
}

/* A number that fits a byte of the settings. */
static int byte_of(const char *text, unsigned *number) {
    const size_t digits = strspn(text, "0123456789");
    if (digits == 0 || digits > 3 || text[digits] != 0)
        return 0;
    *number = (unsigned)strtoul(text, NULL, 10);
    return *number <= UINT8_MAX;
}

static int put_samples(FILE *to, const float *samples, size_t count) {
    const int put = fwrite(samples, 2 * sizeof *samples, count, to) == count;
    return (fclose(to) == 0) && put;
}

/* To a pipe or device as it is; to a file under another name, which it changes for its own when it is whole. */
static int write_samples(const char *name, const float *samples, size_t count) {
    char part[NAME_LEN];
    struct stat there;
    if (strcmp(name, "-") == 0)
        return put_samples(stdout, samples, count) ? DONE : file_failed("standard output");
    const int as_it_is = stat(name, &there) == 0 && !S_ISREG(there.st_mode);
    if (snprintf(part, sizeof part, as_it_is ? "%s" : "%s.part", name) >= (int)sizeof part) {
        errno = ENAMETOOLONG;
        return file_failed(name);
    }
    FILE *to = fopen(part, "wb");
    if (to == NULL)
        return file_failed(name);
    int written = put_samples(to, samples, count);
    if (written && !as_it_is)
        written = rename(part, name) == 0;
    const int status = written ? DONE : file_failed(name);
    if (!written && !as_it_is)
        remove(part);
    return status;
}

static uint32_t with_byte(uint32_t crc, uint8_t byte) {
    crc ^= (uint32_t)byte << 24;
    for (int k = 0; k < 8; k++)
        crc = crc << 1 ^ (crc & 0x80000000 ? 0x04c11db7 : 0);
    return crc;
}

/* The line that `cksum` prints for bytes: a CRC of them and of the bytes of their number, the lowest first. */
static int print_sum(FILE *to, const char *name, const uint8_t *bytes, size_t count) {
    uint32_t crc = 0;
    for (size_t k = 0; k < count; k++)
        crc = with_byte(crc, bytes[k]);
    for (size_t left = count; left != 0; left >>= 8)
        crc = with_byte(crc, left & 0xff);
    const int printed = fprintf(to, "%lu %zu%s%s\n", (unsigned long)(uint32_t)~crc, count, *name ? " " : "", name) >= 0;
    return printed && fflush(to) == 0 ? DONE : file_failed("standard output");
}

/* Room for either setting. */
static float taps_s[MORE1090_MODE_S_TAPS_LEN(8)], taps_ac[MORE1090_MODE_AC_TAPS_LEN(8)];
static float mode_s[MORE1090_PROTOTYPE_LEN(8)], mode_ac[MORE1090_PROTOTYPE_LEN(8)], memory[MORE1090_MEMORY_LEN(8)];

/* A whole run, into samples; it gives 0 and their count, or a status. */
static int simulate(const asked *a, float *samples, size_t *count) {
    uint8_t settings[MORE1090_SETTINGS_LEN], draws[DRAWS * MORE1090_DRAW_LEN], record[MORE1090_RECORD_LEN];
    float noise[NOISE];
    const size_t of_s = MORE1090_MODE_S_TAPS_LEN(a->spp), of_ac = MORE1090_MODE_AC_TAPS_LEN(a->spp);
    const size_t of_prototype = MORE1090_PROTOTYPE_LEN(a->spp), of_memory = MORE1090_MEMORY_LEN(a->spp);
    make_settings(settings, a->trigger_level, a->spp);
    make_taps(taps_s, of_s, a->spp);
    make_taps(taps_ac, of_ac, a->spp);
    more1090_open_result opened = more1090_open(settings, sizeof settings, taps_s, of_s, taps_ac, of_ac, mode_s, of_prototype,
                                                mode_ac, of_prototype, memory, of_memory);
    if (opened.refusal != MORE1090_OK)
        return refused(opened.refusal, opened.value);
    more1090_run_result ran = {.state = opened.state, .draws_taken = DRAWS, .noise_used = NOISE, .stop = MORE1090_STOP_WANTS_DRAWS};
    uint64_t high = 0, low = 0; /* reply samples added, in all */
    for (unsigned n = 0; ran.stop != MORE1090_STOP_DONE; *count += ran.samples_written) {
        /* what was not taken or used comes first in what is lent next */
        size_t left = DRAWS - ran.draws_taken, quiet = NOISE - ran.noise_used;
        memmove(draws, draws + ran.draws_taken * MORE1090_DRAW_LEN, left * MORE1090_DRAW_LEN);
        memmove(noise, noise + ran.noise_used, quiet * sizeof *noise);
        for (; left < DRAWS; left++) {
            make_draw(draws + left * MORE1090_DRAW_LEN, n++, a->spp);
            if (a->spp != 8)
                set_level(draws + left * MORE1090_DRAW_LEN, a->tenths);
        }
        for (; quiet < NOISE; quiet++)
            noise[quiet] = noise_value();
        ran = more1090_run(ran.state, mode_s, of_prototype, mode_ac, of_prototype, memory, of_memory, draws, sizeof draws, noise,
                           NOISE, samples + 2 * *count, 2 * SAMPLES, record, sizeof record);
        if (ran.refusal != MORE1090_OK)
            return refused(ran.refusal, ran.value);
        if (ran.records_written == 1)
            print_record(record);
        low += ran.samples_added_low;
        high += ran.samples_added_high + (low < ran.samples_added_low);
    }
    fprintf(stderr, "reply samples added: high half %llu, low half %llu\n", (unsigned long long)high, (unsigned long long)low);
    return DONE;
}

/* Reads options, each once; it gives 0 and the words behind them, or a status. */
static int read_options(char ***words, asked *a) {
    int given[2] = {0, 0};
    for (char **at = *words; *at != NULL; *words = at) {
        if (strcmp(*at, "--sum") == 0) {
            if (a->sum++)
                return wrong_use("an option is given twice", *at);
            at++;
            continue;
        }
        const int spp = strcmp(*at, "--samples-per-pulse") == 0;
        if (!spp && strcmp(*at, "--trigger-level") != 0)
            return DONE;
        if (given[spp]++)
            return wrong_use("an option is given twice", *at);
        const char *value = at[1] == NULL ? "" : at[1];
        if (spp && !byte_of(value, &a->spp))
            return wrong_use("--samples-per-pulse wants 4 or 8", value);
        if (!spp && !number_of(value, &a->trigger_level))
            return wrong_use("--trigger-level wants a number", value);
        at += 2;
    }
    return DONE;
}

static int read_words(char **words, asked *a, const char **name) {
    uint8_t draw[MORE1090_DRAW_LEN];
    const int wrong = read_options(&words, a);
    if (wrong)
        return wrong;
    if (*words != NULL)
        *name = *words++;
    if (**name == 0 || (**name == '-' && (*name)[1] != 0))
        return wrong_use("there is no such option", *name);
    if (*words == NULL)
        return DONE;
    if (!tenths_of(*words, &a->tenths))
        return wrong_use("no level in dB with one digit after the point or none", *words);
    if (a->spp == 8)
        return wrong_use("levels are those of 4 samples per pulse, and --samples-per-pulse is 8", *words);
    if (words[1] != NULL)
        return wrong_use("one argument too many", words[1]);
    const uint64_t too_high = set_level(draw, a->tenths);
    return too_high == MORE1090_OK ? DONE : refused(too_high, 0);
}

int main(int argc, char **argv) {
    static float samples[2 * (ALL_SAMPLES + SAMPLES)];
    asked a = {.spp = 4, .trigger_level = 0.5f, .tenths = LEVEL};
    const char *name = "-";
    size_t count = 0;
    if (argc > 1 && strcmp(argv[1], "--help") == 0)
        return fputs(usage, stdout) < 0 || fclose(stdout) != 0 ? file_failed("standard output") : DONE;
    int status = read_words(argv + (argc > 0), &a, &name);
    if (status == DONE && strcmp(name, "-") == 0 && isatty(STDOUT_FILENO))
        status = wrong_use("a terminal, and samples are no text", "standard output");
    if (status == DONE)
        status = simulate(&a, samples, &count);
    if (status == DONE)
        status = write_samples(name, samples, count);
    if (status != DONE || !a.sum)
        return status;
    const int beside = strcmp(name, "-") == 0;
    return print_sum(beside ? stderr : stdout, beside ? "" : name, (const uint8_t *)samples, 2 * sizeof *samples * count);
}
