/* The reply generator for C and C++: opening a run, and run calls; what a run will use; the parity of messages; and levels in
 * decibels. Link libmore1090.a and -lm (tools/library makes it). It runs on x86-64-v2 processors (with SSE4.2), and faster on
 * x86-64-v3 ones (with AVX2), with the same bytes.
 *
 * A run makes the samples of transponder replies, each a pair of floats, real part first, and a record of every reply. Its
 * settings say how many samples a pulse of 500 ns has: 4, which is 8,000,000 a second, or 8, which is 16,000,000. The caller
 * lends everything: settings, filter taps, draws (one for each reply) and noise to read; prototypes, working memory, output
 * and records to write. No call allocates, keeps a pointer, or reads or writes anything else; the same arguments give the
 * same answer and the same bytes. Opening takes some 180 kB of stack, a booking 125 kB and one reply alone 155 kB, at 4
 * samples per pulse as at 8.
 *
 * What is said of each call here is proved of its source, for every input, refused ones too (crates/more1090_generator, and
 * its specs/OpenedCalls.antt for lists of calls). Asked of the caller, since no proof can see it: a pointer is aligned to its
 * type and good for its length, and may be NULL only where that is 0; what a call writes overlaps with nothing else that is
 * lent to it. Calls that share no memory may run at the same time.
 *
 * The answers are those of IEEE 754 arithmetic: rounding to nearest, ties to even, subnormal numbers kept. A caller need not
 * ensure it: where its thread has another rounding mode, flush-to-zero, denormals-are-zero or traps set (as -ffast-math sets
 * the second and third), a call works with the default float environment, and gives the caller's back.
 *
 * Lengths count values of the pointer's type: floats or bytes. Places and draws are counted from 0 in what is lent to that
 * call. Settings, draws and records are packed and little-endian, as on a tape (docs/SPECIFICATION.md, 4):
 *
 * Settings, 124 bytes: seconds u64; nanoseconds u32; seven rates f64, by type, in replies a second; three distributions,
 *   each a kind u8 and two numbers f64. Carrier offset: 0 constant (Hz, at most half the sample rate in size), 1 normal with
 *   sigma and max (Hz, the same limit). Phase: 0 constant (radians), 1 uniform. Clock error: 0 constant (parts of one, at most
 *   0.1 in size), 1 uniform with a max. Then the trigger level f32, 0.1 to 0.9 (the nearest floats, both allowed): the part of a
 *   pulse's height at which a reply's time is taken, 0.5 for the middle of its rise. Last the samples per pulse u8, 4 or 8.
 * Types: 0 extended squitter, 1 acquisition squitter, 2 short with address parity, 3 all-call reply, 4 long with address
 *   parity, 5 military extended squitter, 6 Mode A/C.
 * Draw, 65 bytes, its fields: 0 gap f64, samples after the last draw, finite, not negative; 1 type u8, its rate above 0;
 *   2 CN0 f64, finite, dB Hz, for the record alone; 3 amplitude f32, 0 to 2^20; 4 carrier f64, finite, times sigma; 5 phase
 *   f64, from -PI to below PI; 6 clock f64, within max in size; 7 format, 8 capability: picks u8 from the type's lists;
 *   9 overlay u8, 1 to 127 for type 3; 10 bytes u8[14]; 11 Mode A/C data u16, below 4096; 12 SPI u8, 0 or 1. Fields that a
 *   type or a constant distribution does not use are ignored.
 * Record, 66 bytes: time f64, samples; CN0 f64; carrier offset f64, Hz; phase f64, radians; clock error f64; first sample
 *   u64; type u8; count of samples u16; message length u8; message u8[14], then zeros (Mode A/C: 2 bytes, low first, SPI as
 *   bit 12). */
#ifndef MORE1090_GENERATOR_H
#define MORE1090_GENERATOR_H

#include <stddef.h>
#include <stdint.h>

#ifdef __cplusplus
extern "C" {
#endif

/* The version of this interface, as VERSION has it. */
#define MORE1090_VERSION_MAJOR 0
#define MORE1090_VERSION_MINOR 2
#define MORE1090_VERSION_PATCH 0

#define MORE1090_SETTINGS_LEN 124
#define MORE1090_DRAW_LEN 65
#define MORE1090_RECORD_LEN 66

/* What follows from the samples per pulse of a run, spp: constants where it is one, so that an array may have such a length.
 * A program that runs at both has room for 8, and lends as much of it as the run's spp asks for. Any other number than 8 gives
 * what 4 does. A tap stands for 1 / 64 of a sample, for Mode A/C 1450 / 1500 of that. */
#define MORE1090_SAMPLE_RATE(spp) ((spp) == 8 ? 16000000 : 8000000) /* samples a second */
#define MORE1090_MODE_S_TAPS_LEN(spp) ((spp) == 8 ? 2971 : 1486)    /* floats: the lowpass of Mode S */
#define MORE1090_MODE_AC_TAPS_LEN(spp) ((spp) == 8 ? 3029 : 1515)   /* floats: the lowpass of Mode A/C */
#define MORE1090_PROTOTYPE_LEN(spp) ((spp) == 8 ? 3584 : 1792)      /* floats: each of the two prototypes */
#define MORE1090_MEMORY_LEN(spp) ((spp) == 8 ? 4502 : 2252)         /* floats: working memory */
#define MORE1090_REPLY_LIMIT(spp) ((spp) == 8 ? 2187 : 1094)        /* samples: the most that a reply adds to */

/* Refusals: the numbers of SPECIFICATION 3.1, with what `value` and `field` hold; they are 0 where nothing is said. */
enum {
    MORE1090_OK = 0,
    MORE1090_ERR_DURATION = 1,      /* nanoseconds 1,000,000,000 or more, or more than 2^52 samples */
    MORE1090_ERR_RATE = 2,          /* a rate negative or not finite; value: the first such rate, 0 to 6 */
    MORE1090_ERR_TOTAL_RATE = 3,    /* the rates' total is 0 or not finite */
    MORE1090_ERR_DISTRIBUTION = 4,  /* an unknown kind, or a parameter out of range; value: 0 carrier, 1 phase, 2 clock */
    MORE1090_ERR_TAPS = 5,          /* a filter of the wrong length, or a tap not finite or above 16 in size */
    MORE1090_ERR_PROTOTYPE = 6, /* a prototype value not finite or above 16 in size, or no crossing of the trigger level */
    MORE1090_ERR_DRAW = 7,      /* a field out of range; value: the first such draw, field: its first such field. Or a first
                                 * draw that jumps back: its time is before `latest` of the state; value 0, field 0 */
    MORE1090_ERR_NOISE = 8,         /* a noise value not finite or above 64 in size; value: its place */
    MORE1090_ERR_LENGTH = 9,          /* settings, memory, a prototype, output (0 or odd) or draws (no multiple of 65) of a wrong
                                 * length */
    MORE1090_ERR_TAPE = 11,           /* a tape: short, a wrong count, more than 400 draws, bytes left over, or not done */
    MORE1090_ERR_STRETCH_LENGTH = 12, /* output or noise that is not two floats a sample, by more1090_single alone */
    MORE1090_ERR_LEVEL = 13,    /* a level above 200.0 dB, by more1090_level alone */
    MORE1090_ERR_TRIGGER_LEVEL = 14, /* a trigger level below 0.1 or above 0.9, or a NaN */
    MORE1090_ERR_SAMPLES_PER_PULSE = 15, /* samples per pulse other than 4 or 8 */
    MORE1090_ERR_LOG = 16,      /* a log out of order, or a message length in it other than 2, 7 or 14, by more1090_compare_log */
    MORE1090_ERR_FEEDS = 17,    /* no feed or more than 16, or a delay or gain out of range, by more1090_rack_open */
    MORE1090_ERR_RECORD = 18,   /* a record that no run writes: first sample above 2^52, type above 6, count above 9,999, or a
                                 * length not its type's; by more1090_pages and more1090_compare_log; value: the first such record */
    /* by more1090_restore alone */
    MORE1090_ERR_STORED_LENGTH = 19,  /* fewer bytes than any run has, or another number than they say: cut short, or too long */
    MORE1090_ERR_STORED_FOREIGN = 20, /* bytes of something else: no magic number */
    MORE1090_ERR_STORED_VERSION = 21, /* a run stored by another version of the layout */
    MORE1090_ERR_STORED_DAMAGED = 22  /* the check does not fit, or a value that no run has */
};

/* Why a run call came back. */
enum {
    MORE1090_STOP_DONE = 0,         /* every sample is written: the run is over, and further calls write nothing */
    MORE1090_STOP_OUTPUT_FULL = 1,  /* lend output */
    MORE1090_STOP_WANTS_NOISE = 2,  /* lend two noise values or more */
    MORE1090_STOP_WANTS_DRAWS = 3,  /* lend draws; the one that would start within MORE1090_REPLY_LIMIT samples of the end, or
                                     * later, ends the run */
    MORE1090_STOP_RECORDS_FULL = 4, /* lend 66 bytes or more of records */
    MORE1090_STOP_REFUSED = 5
};

typedef struct more1090_distribution {
    uint64_t kind; /* as in the settings */
    double first;
    double second;
} more1090_distribution;

/* A run between two calls: plain data with no pointers and no padding. A run is its state, the prototypes that opening filled
 * and the working memory as the last call left it, all three: a state with memory opened anew gives another run, and nothing
 * refuses it. more1090_save stores them as bytes, and more1090_restore reads them back. Any bytes are taken as a state: a kind or `ended` that is not 0 is read as
 * 1, `samples_per_pulse` that is not 8 as 4, and a number that its kind does not use is ignored; such a state comes back with
 * 1, 4 and 0.0. */
typedef struct more1090_state {
    uint64_t written;    /* samples written so far */
    uint64_t total;      /* samples of the run */
    double time;         /* of the last draw taken, in samples */
    double latest;       /* the latest time of a lent draw by whose start a sample was written, in samples, 0.0 for none: no
                          * first draw may precede it */
    double rates[7];     /* replies a second, by type; in a run call it only matters whether each is above 0 */
    double mode_s_delay; /* of the prototypes, in samples */
    double mode_ac_delay;
    more1090_distribution carrier;
    more1090_distribution phase;
    more1090_distribution clock;
    uint64_t ended; /* 1 once the draw that ends the run is taken, else 0 */
    uint64_t samples_per_pulse; /* 4 or 8 */
} more1090_state;

typedef struct more1090_open_result {
    more1090_state state;
    uint64_t refusal; /* 0, or 1 to 6, 9, 14 or 15 */
    uint64_t value;
} more1090_open_result;

typedef struct more1090_run_result {
    more1090_state state;     /* for the next call */
    uint64_t draws_taken;     /* draws taken */
    uint64_t samples_written; /* samples written: 2 * samples floats */
    uint64_t noise_used;      /* noise values used: 2 * samples */
    uint64_t records_written; /* records written: 66 * records bytes */
    uint64_t stop;            /* 0 to 4, or 5 where refused */
    uint64_t refusal;         /* 0, or 7 to 9 */
    uint64_t value;
    uint64_t field;
    uint64_t samples_added_high; /* reply samples added to working memory, in two halves: high times 2^64 plus low */
    uint64_t samples_added_low;
} more1090_run_result;

/* Opens a run. Checks 15, 9 (mode_s, mode_ac, memory), 1 to 4, 14, 5 and 6, in this order, and answers the first that fails:
 * state is then all zero, and nothing lent is changed. Settings of another length have no samples per pulse, and are 9. Else
 * the refusal is 0, state is the run's before its first call, mode_s and mode_ac hold the prototypes and memory is all 0.0.
 * Settings and taps are not needed any more. */
more1090_open_result more1090_open(const uint8_t *settings, size_t settings_length,
                              const float *taps_s, size_t taps_s_length,
                              const float *taps_ac, size_t taps_ac_length,
                              float *mode_s, size_t mode_s_length,
                              float *mode_ac, size_t mode_ac_length,
                              float *memory, size_t memory_length);

/* A run call; the lengths are those of the state's samples per pulse. Checks 9, then 7 of every draw, then 8 of every noise
 * value, before any work, and answers the first that fails: counts are then 0, state is the one given, and nothing lent is changed. Else it takes draws and writes samples and
 * records until one of the five stops; memory goes on to the next call, and output and records past what was written are
 * unchanged. Sample n of the run is what the replies add there, in the order of their draws, plus noise values 2n and 2n + 1
 * times 2^-10, counted from the run's start; a record stands for each reply, in the order of the draws. samples_added is the
 * sum of the counts in the records that this call wrote, each at most MORE1090_REPLY_LIMIT: a reply's whole count belongs to the call that
 * takes its draw, not to those that write its samples. (A draw that would start before sample 0 is taken and ignored, but
 * its gap counts.) So lend the draws that were not taken and the noise that was not used again, ahead of new ones: how a run
 * is cut into calls then changes no sample, no record and no total of samples added. Since every draw is checked in every
 * call (some 20 ns each, taken or not), lend as many as the call may take, and not the whole list. From an opened run every number of a
 * sample is finite and at most 2^53 in size, however long it lasts. */
more1090_run_result more1090_run(more1090_state state,
                          const float *mode_s, size_t mode_s_length,
                          const float *mode_ac, size_t mode_ac_length,
                          float *memory, size_t memory_length,
                          const uint8_t *draws, size_t draws_length,
                          const float *noise, size_t noise_length,
                          float *output, size_t output_length,
                          uint8_t *records, size_t records_length);

/* What a run will use. Where a draw ends the run, ended is 1 and draw its index; where draws ran out, ended is 0, draw is 0, and
 * time is that of the last draw, in samples. Samples and noise values are the duration's in both cases. */
typedef struct more1090_booking_result {
    uint64_t samples;
    uint64_t noise;       /* noise values: 2 * samples */
    uint64_t records;     /* replies before the draw that ends the run */
    uint64_t draws_taken; /* all, or as many as up to and with the draw that ends the run */
    uint64_t ended;
    uint64_t draw;
    double time;      /* where draws ran out, else 0.0 */
    uint64_t refusal; /* 0, or 1 to 7, 9, 14 or 15; the figures are then 0 */
    uint64_t value;
    uint64_t field;
} more1090_booking_result;

/* What a run of these settings, filters and draws will use; no sample is made, and nothing is written. Checks 15, 9 (draws no
 * multiple of 65), 1 to 4, 14, 5 and 6 as opening does, settings of another length 9 too, then 7 of every draw, also of ignored
 * ones and those behind the one that ends the run. No number of draws is too large. A run that calls of more1090_run bring to Done takes exactly these
 * draws and has exactly these counts in all, whatever draws in range are put after them. (crates/more1090_booking; proved
 * there of lists of calls: crates/run_booking_theorem) */
more1090_booking_result more1090_booking(const uint8_t *settings, size_t settings_length,
                              const float *taps_s, size_t taps_s_length,
                              const float *taps_ac, size_t taps_ac_length,
                              const uint8_t *draws, size_t draws_length);

/* The same for a part of the draws: time is that at which the part before ran out, 0.0 for the first part. Records and draws
 * taken of the parts, added, are those of the whole, and draw is counted in its own part. Once ended is 1 no part is left to
 * ask for. Any time is taken, a NaN too. */
more1090_booking_result more1090_booking_part(double time,
                              const uint8_t *settings, size_t settings_length,
                              const float *taps_s, size_t taps_s_length,
                              const float *taps_ac, size_t taps_ac_length,
                              const uint8_t *draws, size_t draws_length);

typedef struct more1090_single_result {
    uint64_t refusal; /* 0, or 1 to 9, 12, 14 or 15 */
    uint64_t value;
    uint64_t field;
} more1090_single_result;

/* One reply alone: a run's settings, its two filters, one draw of 65 bytes and noise; the whole stretch in one output, two
 * floats for each sample of the settings' duration. The draw's gap is the reply's time. A sample is noise values 2n and 2n + 1
 * times 2^-10, and what the reply adds there, added to it. A reply that starts before sample 0 or runs past the end is
 * trimmed: its samples before sample 0 are passed over, its clock and carrier running through them. No draw is ignored and
 * none ends the run; a start far past the end gives noise alone.
 * Checks 15, 9 (a draw of another length, output of odd length, or empty though the duration has samples), 1, 12 (output or
 * noise that is not two floats a sample), 2, 3, 4, 14, 5 and 6 as opening does, then 7 (value 0, field) and 8, and answers the
 * first that fails; output is then unchanged. Settings of another length are 9. It is passed no prototypes and no working
 * memory: they are on its stack. (crates/more1090_single) */
more1090_single_result more1090_single(const uint8_t *settings, size_t settings_length,
                                       const float *taps_s, size_t taps_s_length,
                                       const float *taps_ac, size_t taps_ac_length,
                                       const uint8_t *draw, size_t draw_length,
                                       const float *noise, size_t noise_length,
                                       float *output, size_t output_length);

/* The parity of a message in whole bytes, of any length: the remainder of the bytes times x^24 by the generator 0x1FFF409,
 * below 2^24. Of a message that ends in its own parity it is 0. (crates/more1090_reply) */
uint32_t more1090_parity(const uint8_t *bytes, size_t bytes_length);

/* What flipping one bit of a message of 7 or 14 bytes changes in its parity, by exclusive or. Places are counted back from 0
 * at the last bit: a short message has 0 to 55, a long one 0 to 111. A place above 111 gives 0. */
uint32_t more1090_parity_change(uint64_t place);

#define MORE1090_NO_BIT UINT64_MAX

/* The place whose flipped bit changes the parity so, or MORE1090_NO_BIT where none does. The 112 changes all differ, so it is
 * the only one. A place of 56 or more is no bit of a short message. */
uint64_t more1090_flipped_bit(uint32_t change);

#define MORE1090_TIS_B 7
#define MORE1090_NO_CLASS 255

/* The class of a message, from its bytes: 7 for a short one, 14 for a long one, 2 for Mode A/C. The answer is the number of
 * its type, 0 to 6; MORE1090_TIS_B for a long message of DF 18 with control 2, 3 or 5; or MORE1090_NO_CLASS, also for any
 * other number of bytes. TIS-B is no type: the record of such a message has the drawn type, 0. */
uint8_t more1090_class(const uint8_t *message, size_t message_length);

enum { MORE1090_NO_READING, MORE1090_II, MORE1090_SI, MORE1090_UNASSIGNED };

/* Which interrogator a message answers. A message of 7 bytes and DF 11 has a reading, whatever its class: its last three
 * bytes, exclusive or, the parity of the first four are the overlay. 0 to 15 are II codes, 17 to 79 are SI codes 1 to 63, and
 * other overlays are unassigned. Answers the kind, and writes the II or SI code to *code, or 0 where there is none. Of other
 * bytes, however many, it answers MORE1090_NO_READING. code must point to a number. */
uint32_t more1090_interrogator(const uint8_t *message, size_t message_length, uint32_t *code);

#define MORE1090_HIGHEST_LEVEL 2000 /* tenths of a decibel */

/* The amplitude of a level in tenths of a decibel, for a draw's field 3: 10^(tenths / 200) / 2,048,000, which is the reference's
 * amplitude of a C/N0 of as many tenths of a dB Hz. It is within one part in 2^22 of that, and the nearest f32, ties to even, to
 * a table's entry times a power of ten (SPECIFICATION 6.15). Answers MORE1090_OK and writes *amplitude; or MORE1090_ERR_LEVEL for
 * tenths above 2000, whatever their size, and leaves it. amplitude must point to a float. Levels are those of 4 samples per
 * pulse: in a run at 8 the same amplitude has 3.01 dB Hz more. (crates/more1090_reply) */
uint64_t more1090_level(uint64_t tenths, float *amplitude);

#define MORE1090_LINE_LEN 72
#define MORE1090_PAGE_LEN 4380

/* refusal is 0 for none; value is then 0, and else the record at fault for refusal 18. */
typedef struct more1090_pages_result {
    uint64_t refusal, value, pages;
} more1090_pages_result;

/* Records of 66 bytes on paper: a line for each record, of 72 bytes and a line feed, 60 lines a page of
 * MORE1090_PAGE_LEN bytes, the last page padded with lines of blanks; none for no records. A line has the first sample
 * right-aligned in 16 columns, the type in 1, the count right-aligned in 4, each with a space behind it, the message in
 * hexadecimal left-aligned in 28, Mode A/C high byte first, and 20 blanks. Checks 9 for record bytes that are no multiple of
 * 66, and for output shorter than the pages, then 18 for the first record with a first sample above 2^52, a type above 6, a
 * count above 9,999 or a length other than its type's (14, 7 or 2), with its index as the value. Then nothing is written.
 * Else answers the pages written, from the start of output on; output behind them is unchanged. Every record that a run
 * writes is accepted. (crates/more1090_records) */
more1090_pages_result more1090_pages(const uint8_t *records, size_t records_length, uint8_t *output, size_t output_length);

typedef struct more1090_line_result {
    uint64_t found, first_sample, type, count, message_length;
} more1090_line_result;

/* Reads a line of MORE1090_LINE_LEN bytes, without its line feed, back. Of the line of every accepted record it gives the
 * first sample, the type, the count, and the message with its length, in the record's order of bytes, zeros behind it to 14
 * bytes. found is 0, and all else 0, for another number of bytes, and where column 17 has no type 0 to 6, so for a line of
 * blanks. Of other bytes a column without a digit reads as 0. message must point to 14 bytes; all are written. */
more1090_line_result more1090_page_line(const uint8_t *line, size_t line_length, uint8_t *message);

#define MORE1090_LONGEST_HEAD_LEN 50140  /* bytes of a tape before its noise, at most */
#define MORE1090_TAPE_DRAWS 400          /* draws of a tape, at most */
#define MORE1090_TAPE_TEXT_LEN 40960

/* How a tape's noise section ends. */
enum {
    MORE1090_TAPE_WHOLE = 0,     /* all its values are fed, and nothing stands behind them */
    MORE1090_TAPE_LEFT_OVER = 1, /* bytes do */
    MORE1090_TAPE_SHORT = 2      /* there are fewer values than its count says */
};

/* The run of a tape between two chunks of noise: plain data with no pointers and no padding. */
typedef struct more1090_tape {
    more1090_state state;
    uint64_t draws_taken; /* so far */
    uint64_t records;     /* written so far */
    uint64_t stop;        /* why the last call came back, or 5 where refused */
    uint64_t refusal;     /* 0 for none */
    uint64_t value;
    uint64_t field;
} more1090_tape;

typedef struct more1090_tape_open_result {
    more1090_tape tape;
    uint64_t draws_at; /* where the draws stand on the tape; 0 where refused, as are draws and noise */
    uint64_t draws;    /* how many they are, 65 bytes each */
    uint64_t noise;    /* how many noise values stand behind the head */
} more1090_tape_open_result;

/* refusal is 0 for a run that is done; else records is 0, and samples are those written before it. */
typedef struct more1090_tape_ending_result {
    uint64_t refusal, value, field, records, samples;
} more1090_tape_ending_result;

/* How many bytes of a tape (SPECIFICATION 4.6) stand before its noise, as far as its first bytes say: at most
 * MORE1090_LONGEST_HEAD_LEN. A caller reads on until it has as many as the answer says for what it has, or the tape ends. */
uint64_t more1090_tape_head_length(const uint8_t *first, size_t first_length);

/* Opens the run of a tape, of which the head is passed: all before its noise. Refuses in the order of SPECIFICATION 11.2, 9 for
 * buffers of another length than more1090_open takes, and then changes nothing. Else fills the buffers as more1090_open does.
 * It takes some 240 kB of stack. */
more1090_tape_open_result more1090_tape_open(const uint8_t *head, size_t head_length,
                                             float *mode_s, size_t mode_s_length,
                                             float *mode_ac, size_t mode_ac_length,
                                             float *memory, size_t memory_length);

/* Feeds it a chunk of its noise: a call of more1090_run that is lent the draws not taken and the room behind the records.
 * Draws and records are those of the whole tape, from their start: records with room for a record of each draw. The samples that
 * come of the chunk, tape.state.written more than before, stand at the start of output. A tape that is refused stays as it is,
 * and so do the buffers. All chunks but the last must have an even number of values, and output an even length above that of the
 * chunk; the first may be empty, and has to be fed where there is no noise. Then however the noise is cut, the text and the
 * samples are those of the plain run (crates/more1090_tape, specs/TapeInC.antt). */
more1090_tape more1090_tape_feed(more1090_tape tape,
                                 const float *mode_s, size_t mode_s_length,
                                 const float *mode_ac, size_t mode_ac_length,
                                 float *memory, size_t memory_length,
                                 const uint8_t *draws, size_t draws_length,
                                 const float *noise, size_t noise_length,
                                 float *output, size_t output_length,
                                 uint8_t *records, size_t records_length);

/* How a tape ends, by how its noise section does (any other number than 0 and 1 is read as 2): 11 for a short section, the
 * refusal of the run, 11 for a run that is not done or for bytes left over; or 0, with its records and samples. The value of
 * refusal 8 is the place in the chunk that was refused. */
more1090_tape_ending_result more1090_tape_ending(more1090_tape tape, uint64_t end);

/* What the tape program prints of a tape that ends so (SPECIFICATION 11.1), with the records of its run; of more than 400 the
 * first have lines. Answers the text's length; text must point to MORE1090_TAPE_TEXT_LEN bytes, and behind the text they are
 * unchanged. */
uint64_t more1090_tape_text(more1090_tape_ending_result ending, const uint8_t *records, size_t records_length, uint8_t *text);

#define MORE1090_ENTRY_LEN 23
#define MORE1090_NOBODY UINT64_MAX

/* The counts of pairs, of records unheard and of entries unsent. refusal: 0, or its number; then the counts are 0. */
typedef struct more1090_log_result {
    uint64_t pairs;
    uint64_t unheard;
    uint64_t unsent;
    uint64_t refusal;
    uint64_t value;
} more1090_log_result;

/* What a receiver heard, held against the records of a run. The log has entries of 23 bytes: sample u64, message length u8,
 * message u8[14], in rising order of sample, equal ones allowed. An entry may be paired with a record whose message has the same
 * length and the same bytes up to it, and whose first sample differs by at most `tolerance` samples, any number. Each entry, in
 * the log's order, gets the record still free and allowed that has the lowest first sample, of equal ones the first in
 * `records`. No pairing has more pairs. Records may be in any order; where first samples fall by at most 64, as a run writes
 * them, the time is in proportion to entries and records, times those that lie within the tolerance of one entry.
 *
 * Writes to `partners` each entry's record and to `owners` each record's entry, by their indices from 0, or MORE1090_NOBODY.
 * Refuses, first to last: MORE1090_ERR_LENGTH for a log of no multiple of 23 bytes, records of no multiple of 66 bytes, or a list
 * without exactly one number for each; MORE1090_ERR_RECORD; MORE1090_ERR_LOG. A refusal writes to neither list.
 * (SPECIFICATION 13; crates/more1090_records) */
more1090_log_result more1090_compare_log(const uint8_t *log, size_t log_length, const uint8_t *records, size_t records_length,
                                         uint64_t tolerance, uint64_t *partners, size_t partners_length, uint64_t *owners,
                                         size_t owners_length);

#define MORE1090_RACK_FEEDS 16
#define MORE1090_RACK_MEMORY_LEN 8190 /* floats */

/* A rack between two calls: plain data with no pointers and no padding, to be stored with its memory. Any bytes are taken as
 * one: more than 16 feeds are read as 16, and a delay or `seen` above 4,095 as 4,095. */
typedef struct more1090_rack {
    uint64_t feeds;
    uint64_t seen; /* samples taken so far, counted up to 4,095 */
    uint64_t delays[MORE1090_RACK_FEEDS];
    float gains[MORE1090_RACK_FEEDS];
} more1090_rack;

typedef struct more1090_rack_result {
    more1090_rack rack; /* for the next call */
    uint64_t refusal;   /* 0, 9 or 17 */
} more1090_rack_result;

/* Opens a rack of 1 to 16 feeds, each with a delay of 0 to 4,095 samples and a gain of 0 to 1 (-0.0 is in range, a NaN is
 * not). Checks 9 (memory not MORE1090_RACK_MEMORY_LEN, delays and gains of unlike lengths), then 17, and answers the first
 * that fails: rack is then all zero, and memory is unchanged. Else the refusal is 0 and memory is all 0.0.
 * (crates/more1090_rack, and rack_theory/specs/OpenedRacks.antt for lists of calls) */
more1090_rack_result more1090_rack_open(float *memory, size_t memory_length,
                                        const uint64_t *delays, size_t delays_length,
                                        const float *gains, size_t gains_length);

/* Takes samples, two floats each, and writes as many for each feed to room, feed 0's first: room_length must be the number
 * of feeds times samples_length. Feed i at sample n, counted from the opening, is its gain times sample n minus its delay, a
 * product for each of the two floats, and +0.0 before that. No samples, and room of length 0, are accepted. 9 (memory,
 * samples of odd length, room of another length) changes nothing, and no other refusal comes. What more1090_run wrote may be
 * taken in any parts: how it is cut changes no feed, and neither do the other feeds. */
more1090_rack_result more1090_rack_run(more1090_rack rack,
                                       float *memory, size_t memory_length,
                                       const float *samples, size_t samples_length,
                                       float *room, size_t room_length);

/* The bytes of a stored run, without a rack and with one. The four lengths differ, so that they say what is stored. */
#define MORE1090_STORED_LEN(spp) ((spp) == 8 ? 46936 : 23600)
#define MORE1090_STORED_RACK_LEN(spp) ((spp) == 8 ? 79904 : 56568)

/* Stores a run between two calls: its state, prototypes and working memory, and where rack_memory_length is not 0 the rack
 * behind it with its memory. Else rack is ignored, and may be all zero. Answers MORE1090_OK with every byte written, or
 * MORE1090_ERR_LENGTH where prototypes or memory have not the lengths of the state's samples per pulse, rack_memory_length is
 * neither 0 nor MORE1090_RACK_MEMORY_LEN, or bytes_length is not the one above: then it writes nothing. SPECIFICATION 16.1
 * has the bytes. (crates/more1090_bytes, crates/run_bytes) */
uint64_t more1090_save(more1090_state state,
                       const float *mode_s, size_t mode_s_length,
                       const float *mode_ac, size_t mode_ac_length,
                       const float *memory, size_t memory_length,
                       more1090_rack rack, const float *rack_memory, size_t rack_memory_length,
                       uint8_t *bytes, size_t bytes_length);

typedef struct more1090_restore_result {
    more1090_state state; /* all zero where refused */
    more1090_rack rack;   /* all zero where there is none */
    uint64_t refusal;     /* 0, 9, or 19 to 22 */
} more1090_restore_result;

/* Reads a stored run back. Checks 19 for fewer than 256 bytes, 20, 21, 19 for another length than the bytes say, 22, then 9 for
 * prototypes, memory or rack_memory of another length than what is stored has (rack_memory_length is 0 where no rack is), and
 * answers the first that fails: then no buffer is changed. Else the refusal is 0, and state, rack and buffers are those that
 * more1090_save was given, bit for bit: the run goes on as if it had never been stored. No list of a run holds a NaN; one that
 * a caller writes there is read back as the quiet NaN. Bytes that more1090_save wrote are refused wherever one bit, any two
 * bits, or any two bytes of them have changed. (crates/more1090_bytes, and its specs/StoredInC.antt;
 * run_bytes_theorem/specs/StoredRuns.antt for lists of calls) */
more1090_restore_result more1090_restore(const uint8_t *bytes, size_t bytes_length,
                                         float *mode_s, size_t mode_s_length,
                                         float *mode_ac, size_t mode_ac_length,
                                         float *memory, size_t memory_length,
                                         float *rack_memory, size_t rack_memory_length);

#ifdef __cplusplus
}
#define MORE1090_ASSERT(holds) static_assert(holds, "layout")
#else
#define MORE1090_ASSERT(holds) _Static_assert(holds, "layout")
#endif
MORE1090_ASSERT(sizeof(more1090_state) == 192 && offsetof(more1090_state, ended) == 176);
MORE1090_ASSERT(offsetof(more1090_state, samples_per_pulse) == 184);
MORE1090_ASSERT(sizeof(more1090_open_result) == 208 && offsetof(more1090_open_result, refusal) == 192);
MORE1090_ASSERT(sizeof(more1090_run_result) == 272 && offsetof(more1090_run_result, draws_taken) == 192);
MORE1090_ASSERT(offsetof(more1090_run_result, samples_added_high) == 256);
MORE1090_ASSERT(sizeof(more1090_pages_result) == 24 && sizeof(more1090_line_result) == 40);
MORE1090_ASSERT(sizeof(more1090_tape) == 240 && offsetof(more1090_tape, refusal) == 216);
MORE1090_ASSERT(sizeof(more1090_tape_open_result) == 264 && offsetof(more1090_tape_open_result, draws_at) == 240);
MORE1090_ASSERT(sizeof(more1090_tape_ending_result) == 40);
MORE1090_ASSERT(sizeof(more1090_log_result) == 40 && offsetof(more1090_log_result, value) == 32);
MORE1090_ASSERT(sizeof(more1090_rack) == 208 && offsetof(more1090_rack, gains) == 144);
MORE1090_ASSERT(sizeof(more1090_rack_result) == 216 && offsetof(more1090_rack_result, refusal) == 208);
MORE1090_ASSERT(sizeof(more1090_restore_result) == 408 && offsetof(more1090_restore_result, refusal) == 400);
MORE1090_ASSERT(sizeof(more1090_booking_result) == 80 && offsetof(more1090_booking_result, refusal) == 56);
MORE1090_ASSERT(sizeof(more1090_single_result) == 24);
#undef MORE1090_ASSERT

#endif
