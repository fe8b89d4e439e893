//! The stored tapes of tapes/: a small tape, and for each refusal, and each form of it, a change of that tape or of another
//! stored one. Then `tapes/run --report >tapes/expected`, and `tapes/judge` holds what is expected against the rules and the
//! reference.

const LEVEL: usize = 123;
const PER_PULSE: usize = 127;
const TAPS_COUNT: usize = 128;
const TAPS: usize = 132;
const DRAWS: usize = 12_136;
const NOISE: usize = 12_140 + 2 * 65;

/// The worked tape (crates/tape/stdin) and the tape of crates/cf32/stdin, which is longer than a chunk of noise: its bytes, and where its noise begins.
const WORKED: usize = 76_339;
const LONG: usize = 89_744;
const LONG_NOISE: usize = 14_740;

/// The worked tape at 8 samples per pulse, with amplitudes and noise, as tapes/tape makes it: its bytes, and where its draws and its
/// noise begin.
const EIGHT: usize = 152_335;
const EIGHT_DRAWS: usize = 24_132;
const EIGHT_NOISE: usize = 24_136 + 3 * 65;

/// 1,200 samples; rates 1.0; all distributions uniform or normal; a trigger level of 0.5; 4 samples per pulse; tap 0 of each lowpass 1.0; a Mode A/C reply and a draw that ends the run; noise of 2,400 values.
pub fn small() -> Vec<u8> {
    let mut b = Vec::new();
    b.extend(1u32.to_le_bytes());
    b.extend(0u64.to_le_bytes());
    b.extend(150_000u32.to_le_bytes());
    for _ in 0..7 {
        b.extend(1.0f64.to_le_bytes());
    }
    for (kind, first, second) in [(1u8, 100.0f64, 1000.0f64), (1, 0.0, 0.0), (1, 0.05, 0.0)] {
        b.push(kind);
        b.extend(first.to_le_bytes());
        b.extend(second.to_le_bytes());
    }
    b.extend(0.5f32.to_le_bytes());
    b.push(4);
    b.extend(3001u32.to_le_bytes());
    for k in 0..3001 {
        b.extend(if k == 0 || k == 1486 { 1.0f32 } else { 0.0 }.to_le_bytes());
    }
    b.extend(2u32.to_le_bytes());
    for (gap, kind) in [(50.5f64, 6u8), (1_000_000.0, 3)] {
        b.extend(gap.to_le_bytes());
        b.push(kind);
        b.extend(40.0f64.to_le_bytes());
        b.extend(1.0f32.to_le_bytes());
        b.extend(0.25f64.to_le_bytes());
        b.extend(0.5f64.to_le_bytes());
        b.extend(0.01f64.to_le_bytes());
        b.extend([0, 0, 1]);
        b.extend([0u8; 14]);
        b.extend(3584u16.to_le_bytes());
        b.push(0);
    }
    b.extend(2400u32.to_le_bytes());
    for k in 0..2400u32 {
        b.extend(((k % 7) as f32 - 3.0).to_le_bytes());
    }
    b
}

/// A case: its name, the tape that it changes, its length, and bytes put at places before it is cut to that length.
type Change = (usize, Vec<u8>);

struct Cases {
    whole: usize,
    all: Vec<(String, &'static str, usize, Vec<Change>)>,
}

fn put(at: usize, bytes: &[u8]) -> Change {
    (at, bytes.to_vec())
}

impl Cases {
    fn small(&mut self, name: &str, changes: &[Change], length: usize) {
        self.all
            .push((name.to_string(), "small", length, changes.to_vec()));
    }

    fn at(&mut self, name: &str, place: usize, bytes: &[u8]) {
        self.small(name, &[put(place, bytes)], self.whole);
    }

    fn of(&mut self, base: &'static str, name: &str, changes: &[Change], length: usize) {
        self.all.push((name.to_string(), base, length, changes.to_vec()));
    }
}

fn heads(c: &mut Cases) {
    let nan = f64::NAN.to_le_bytes();
    c.at(
        "1: nanoseconds of 1,000,000,000",
        12,
        &1_000_000_000u32.to_le_bytes(),
    );
    c.at("1: above 2^52 samples", 4, &562_949_954u64.to_le_bytes());
    c.at("2: the last rate negative", 16 + 8 * 6, &(-1.0f64).to_le_bytes());
    c.at("2: the first rate a NaN", 16, &nan);
    c.at("3: rates of 0 in all", 16, &[0; 56]);
    c.at(
        "3: an infinite total",
        16,
        &[f64::MAX.to_le_bytes(), f64::MAX.to_le_bytes()].concat(),
    );
    for (k, name) in ["carrier offset", "phase", "clock error"].iter().enumerate() {
        c.at(&format!("4: a {name} of kind 2"), 72 + 17 * k, &[2]);
    }
    c.at("4: the carrier offset's first parameter a NaN", 73, &nan);
    c.at(
        "a uniform phase, which has no parameter, with a NaN for it",
        73 + 17,
        &nan,
    );
    c.at("4: the clock error's first parameter a NaN", 73 + 34, &nan);
    c.at("5: an infinite tap", TAPS, &f32::INFINITY.to_le_bytes());
    c.at(
        "5: the last tap above 16",
        TAPS + 4 * 3000,
        &16.000002f32.to_le_bytes(),
    );
    c.at(
        "6: a prototype value above 16",
        TAPS + 4,
        &[16.0f32.to_le_bytes(), 16.0f32.to_le_bytes()].concat(),
    );
    c.at("6: no crossing of 0.5", TAPS + 4 * 1486, &0.25f32.to_le_bytes());
    for (name, level) in [("0.1", 0.1f32), ("0.25", 0.25), ("0.9", 0.9)] {
        c.at(&format!("a trigger level of {name}"), LEVEL, &level.to_le_bytes());
    }
    for (name, level) in [
        ("just below 0.1", 0.1f32.next_down()),
        ("just above 0.9", 0.9f32.next_up()),
        ("of 0", 0.0),
        ("that is a NaN", f32::NAN),
    ] {
        c.at(&format!("14: a trigger level {name}"), LEVEL, &level.to_le_bytes());
    }
    for n in [0u8, 2, 5, 12, 255] {
        c.at(&format!("15: {n} samples per pulse"), PER_PULSE, &[n]);
    }
    c.at("15: the count of the taps behind settings of 123 bytes", PER_PULSE, &[0xb9]);
    c.at("15: the count of the taps and a tap behind settings of 119 bytes", LEVEL, &[0xb9, 0x0b, 0, 0, 0]);
    c.small(
        "a trigger level of 0.2 and a Mode A/C tap of 0.25",
        &[put(LEVEL, &0.2f32.to_le_bytes()), put(TAPS + 4 * 1486, &0.25f32.to_le_bytes())],
        c.whole,
    );
    let fields = [
        ("gap", 0usize, (-1.0f64).to_le_bytes()),
        ("CN0", 9, nan),
        ("carrier draw", 21, nan),
        ("phase draw", 29, 3.2f64.to_le_bytes()),
        ("clock draw", 37, 0.06f64.to_le_bytes()),
    ];
    for (name, field, bytes) in fields {
        c.at(&format!("7: the {name} of a draw"), DRAWS + 4 + field, &bytes);
    }
    c.at("7: type 7", DRAWS + 4 + 8, &[7]);
    c.at(
        "7: an amplitude above 2^20",
        DRAWS + 4 + 17,
        &1_048_577.0f32.to_le_bytes(),
    );
    c.at("7: data of 4,096", DRAWS + 4 + 62, &4096u16.to_le_bytes());
    c.at("7: SPI of 2", DRAWS + 4 + 64, &[2]);
    c.at("7: CA pick 5 of the last draw", DRAWS + 69 + 46, &[5]);
    c.at("7: overlay 0 of the last draw", DRAWS + 69 + 47, &[0]);
    c.at("7: overlay 128 of the last draw", DRAWS + 69 + 47, &[128]);
}

fn noise(c: &mut Cases) {
    let whole = c.whole;
    let nan = f32::NAN.to_le_bytes();
    c.at("8: the first noise value a NaN", NOISE + 4, &nan);
    c.at(
        "8: the last noise value above 64",
        NOISE + 4 + 4 * 2399,
        &64.00001f32.to_le_bytes(),
    );
    c.at("11: no settings", 0, &[0]);
    c.at("11: two settings", 0, &[2]);
    c.at("11: 3,000 taps", TAPS_COUNT, &3000u32.to_le_bytes());
    c.at("11: 401 draws", DRAWS, &401u32.to_le_bytes());
    c.at(
        "11: not done, no draw ends the run",
        DRAWS + 69,
        &1.0f64.to_le_bytes(),
    );
    c.at(
        "11: not done, 2,399 noise values, and bytes left over",
        NOISE,
        &2399u32.to_le_bytes(),
    );
    c.small(
        "11: not done, 2,398 noise values",
        &[put(NOISE, &2398u32.to_le_bytes())],
        whole - 8,
    );
    c.at("11: 4,294,967,295 noise values", NOISE, &u32::MAX.to_le_bytes());
    c.small(
        "order: a rate before the count of the taps",
        &[put(16, &f64::NAN.to_le_bytes()), put(TAPS_COUNT, &[0])],
        whole,
    );
    c.small(
        "order: a trigger level before the count of the taps",
        &[put(LEVEL, &[0; 4])],
        TAPS_COUNT,
    );
    c.small(
        "order: a distribution before a trigger level",
        &[put(72, &[2]), put(LEVEL, &[0; 4])],
        whole,
    );
    c.small(
        "order: a trigger level before a tap",
        &[put(LEVEL, &[0; 4]), put(TAPS, &nan)],
        whole,
    );
    c.small(
        "order: short settings before their trigger level and samples per pulse",
        &[put(LEVEL, &[0; 5])],
        TAPS_COUNT - 1,
    );
    c.small(
        "order: samples per pulse before the nanoseconds, the trigger level and the count of the taps",
        &[put(12, &4_000_000_000u32.to_le_bytes()), put(LEVEL, &nan), put(PER_PULSE, &[5])],
        TAPS_COUNT,
    );
    c.small(
        "order: samples per pulse before a rate and a tap",
        &[put(16, &f64::NAN.to_le_bytes()), put(PER_PULSE, &[0]), put(TAPS, &nan)],
        whole,
    );
    c.small(
        "order: a tap before the count of the draws",
        &[put(TAPS, &nan), put(DRAWS, &401u32.to_le_bytes())],
        whole,
    );
    c.small(
        "order: a draw before the count of the noise",
        &[put(DRAWS + 12, &[9]), put(NOISE, &[0xff; 4])],
        whole,
    );
    c.small(
        "order: a short noise section before its values",
        &[put(NOISE + 4, &nan)],
        whole - 1,
    );
    c.small(
        "order: a noise value before a run not done",
        &[put(NOISE + 4, &nan), put(DRAWS + 69, &1.0f64.to_le_bytes())],
        whole,
    );
    c.small(
        "order: a noise value before a byte left over",
        &[put(NOISE + 4, &nan)],
        whole + 1,
    );
    c.small("no samples, with noise", &[put(12, &[0; 4])], whole);
    c.small(
        "no samples, without noise",
        &[put(12, &[0; 4]), put(NOISE, &[0; 4])],
        NOISE + 4,
    );
    c.small(
        "no samples, without draws and noise: not done",
        &[put(12, &[0; 4]), put(DRAWS, &[0; 8])],
        DRAWS + 8,
    );
    c.small(
        "no samples, cut in the count of the noise",
        &[put(12, &[0; 4]), put(NOISE, &[0; 4])],
        NOISE + 2,
    );
    c.small(
        "an odd noise value more, unused",
        &[put(NOISE, &2401u32.to_le_bytes())],
        whole + 4,
    );
    c.small(
        "8: an odd noise value more, unused and a NaN",
        &[put(NOISE, &2401u32.to_le_bytes()), put(whole, &nan)],
        whole + 4,
    );
    c.small("11: a byte left over", &[], whole + 1);
    c.small("11: noise one value short", &[], whole - 4);
    for length in [
        0,
        3,
        4,
        123,
        127,
        128,
        131,
        132,
        6000,
        DRAWS - 1,
        DRAWS,
        DRAWS + 3,
        DRAWS + 4,
        DRAWS + 60,
        NOISE - 1,
        NOISE,
        NOISE + 3,
        NOISE + 4,
        whole - 1,
    ] {
        c.small(&format!("11: cut to {length} bytes"), &[], length);
    }
}

fn others(c: &mut Cases) {
    let nan = f32::NAN.to_le_bytes();
    c.of("worked", "the worked tape", &[], WORKED);
    c.of(
        "worked",
        "8: the worked tape with a first gap of 10.0 and its last noise value a NaN",
        &[put(DRAWS + 4, &10.0f64.to_le_bytes()), put(WORKED - 4, &nan)],
        WORKED,
    );
    c.of("long", "two chunks", &[], LONG);
    c.of(
        "long",
        "8: the last value of the second chunk a NaN",
        &[put(LONG - 4, &nan)],
        LONG,
    );
    c.of(
        "long",
        "8: the last value of the first chunk a NaN",
        &[put(LONG_NOISE + 4 + 4 * 16_383, &nan)],
        LONG,
    );
    c.of("long", "11: the second chunk one value short", &[], LONG - 4);
    c.of(
        "long",
        "11: the first chunk one value short",
        &[],
        LONG_NOISE + 4 + 4 * 16_383,
    );
    c.of("long", "11: a byte left over behind two chunks", &[], LONG + 1);
    c.of(
        "long",
        "11: not done after a whole chunk",
        &[put(LONG_NOISE, &16_384u32.to_le_bytes())],
        LONG_NOISE + 4 + 4 * 16_384,
    );
}

/// The worked tape at 8 samples per pulse, and what is not as at 4.
fn at_8(c: &mut Cases) {
    let nan = f32::NAN.to_le_bytes();
    let offset = |x: f64| put(73, &x.to_le_bytes());
    let duration = |seconds: u64, nanoseconds: u32| {
        put(4, &[&seconds.to_le_bytes()[..], &nanoseconds.to_le_bytes()].concat())
    };
    let gap = |x: f64| put(EIGHT_DRAWS + 4, &x.to_le_bytes());
    let greatest = put(EIGHT_DRAWS + 4 + 17, &1_048_576f32.to_le_bytes());
    let mut eight = |name: &str, changes: &[Change], length: usize| c.of("eight", name, changes, length);
    eight("the worked tape at 8 samples per pulse", &[], EIGHT);
    eight("a start of 13,812 of 16,000", &[gap(13_812.0)], EIGHT);
    eight("a start of 13,813 of 16,000", &[gap(13_813.0)], EIGHT);
    eight("62 nanoseconds at 8: no samples", &[duration(0, 62)], EIGHT);
    eight("63 nanoseconds at 8: a sample", &[duration(0, 63)], EIGHT);
    eight("188 nanoseconds at 8: 3 samples", &[duration(0, 188)], EIGHT);
    eight("11: not done, 2^52 samples at 8", &[duration(281_474_976, 710_656_062)], EIGHT);
    eight("1: above 2^52 samples at 8", &[duration(281_474_976, 710_656_063)], EIGHT);
    eight("an amplitude of 2^20 at 8", &[greatest], EIGHT);
    eight("an offset of 8,000,000 Hz at 8", &[offset(8e6)], EIGHT);
    eight("4: an offset above 8,000,000 Hz at 8", &[offset(8e6f64.next_up())], EIGHT);
    eight("an offset above 4,000,000 Hz at 8", &[offset(4e6f64.next_up())], EIGHT);
    eight("5: the last tap a NaN at 8", &[put(EIGHT_DRAWS - 4, &nan)], EIGHT);
    eight("6: no crossing at 8", &[put(TAPS + 4 * 2971, &0.25f32.to_le_bytes())], EIGHT);
    eight("7: data of 4,096 at 8", &[put(EIGHT_DRAWS + 4 + 65 + 62, &4096u16.to_le_bytes())], EIGHT);
    eight("8: the last noise value a NaN at 8", &[gap(10.0), put(EIGHT - 4, &nan)], EIGHT);
    eight("11: 3,001 taps at 8", &[put(TAPS_COUNT, &3001u32.to_le_bytes())], EIGHT);
    eight("11: 5,999 taps at 8", &[put(TAPS_COUNT, &5999u32.to_le_bytes())], EIGHT);
    eight("11: 6,000 taps at 4", &[put(PER_PULSE, &[4])], EIGHT);
    eight("15: 9 samples per pulse and 6,000 taps", &[put(PER_PULSE, &[9])], EIGHT);
    eight("11: not done, 31,998 noise values at 8", &[put(EIGHT_NOISE, &31_998u32.to_le_bytes())], EIGHT - 8);
    eight("11: a byte left over at 8", &[], EIGHT + 1);
    for length in [
        TAPS,
        EIGHT_DRAWS - 1,
        EIGHT_DRAWS,
        EIGHT_DRAWS + 3,
        EIGHT_DRAWS + 4,
        EIGHT_DRAWS + 100,
        EIGHT_NOISE - 1,
        EIGHT_NOISE,
        EIGHT_NOISE + 4,
        EIGHT - 1,
    ] {
        eight(&format!("11: cut to {length} bytes at 8"), &[], length);
    }
    c.at("11: 8 samples per pulse and 3,001 taps", PER_PULSE, &[8]);
    c.at("4: an offset above 4,000,000 Hz at 4", 72, &[&[0], &4e6f64.next_up().to_le_bytes()[..]].concat());
}

/// A line for each case: its name, the tape that it changes, its length, and the changes.
pub fn cases() -> Vec<u8> {
    let whole = small().len();
    let mut c = Cases {
        whole,
        all: Vec::new(),
    };
    c.small("the small tape", &[], whole);
    heads(&mut c);
    noise(&mut c);
    others(&mut c);
    at_8(&mut c);
    let mut text = String::new();
    for (name, base, length, changes) in c.all {
        text += &format!("{name}; {base}; {length};");
        for (at, bytes) in changes {
            let hex: String = bytes.iter().map(|b| format!("{b:02x}")).collect();
            text += &format!(" {at}={hex}");
        }
        text += "\n";
    }
    text.into_bytes()
}
