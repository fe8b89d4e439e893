//! include/more1090_generator.h for Rust: its structs, and its calls on slices. A `Run` holds all that a run needs
//! between two calls: its state, the prototypes and the working memory. It can be stored and taken up again.
// A program uses a part of it.
#![allow(dead_code)]

pub const SETTINGS_LEN: usize = 124;
pub const DRAW_LEN: usize = 65;
pub const RECORD_LEN: usize = 66;

pub const STOP_DONE: u64 = 0;

/// The samples of a pulse of 500 ns, the last byte of the settings, and what follows from them.
#[derive(Clone, Copy, Debug, PartialEq, Eq)]
pub enum SamplesPerPulse {
    Four = 4,
    Eight = 8,
}

impl SamplesPerPulse {
    /// As the library reads a number: 8 is 8, and any other is 4.
    pub const fn of(number: u64) -> SamplesPerPulse {
        if number == 8 { SamplesPerPulse::Eight } else { SamplesPerPulse::Four }
    }

    /// Of settings. Those of another length or with another number are refused, whatever is lent beside them.
    pub fn of_settings(settings: &[u8]) -> SamplesPerPulse {
        SamplesPerPulse::of(settings.get(SETTINGS_LEN - 1).map_or(4, |&byte| u64::from(byte)))
    }

    const fn either(self, at_4: usize, at_8: usize) -> usize {
        match self {
            SamplesPerPulse::Four => at_4,
            SamplesPerPulse::Eight => at_8,
        }
    }

    /// Samples a second.
    pub const fn sample_rate(self) -> u64 {
        self.either(8_000_000, 16_000_000) as u64
    }

    /// The taps of the Mode S lowpass.
    pub const fn mode_s_taps_len(self) -> usize {
        self.either(1486, 2971)
    }

    /// The taps of the Mode A/C lowpass.
    pub const fn mode_ac_taps_len(self) -> usize {
        self.either(1515, 3029)
    }

    /// The f32 of each prototype.
    pub const fn prototype_len(self) -> usize {
        self.either(1792, 3584)
    }

    /// The f32 of working memory.
    pub const fn memory_len(self) -> usize {
        self.either(2252, 4502)
    }

    /// The most samples that a reply adds to.
    pub const fn reply_limit(self) -> usize {
        self.either(1094, 2187)
    }

    /// The bytes of a stored run.
    pub const fn stored_len(self) -> usize {
        self.either(23600, 46936)
    }

    /// The bytes of a stored run with a rack behind it.
    pub const fn stored_rack_len(self) -> usize {
        self.either(56568, 79904)
    }
}

#[repr(C)]
#[derive(Clone, Copy)]
pub struct Distribution {
    pub kind: u64,
    pub first: f64,
    pub second: f64,
}

#[repr(C)]
#[derive(Clone, Copy)]
pub struct State {
    pub written: u64,
    pub total: u64,
    pub time: f64,
    pub latest: f64,
    pub rates: [f64; 7],
    pub mode_s_delay: f64,
    pub mode_ac_delay: f64,
    pub carrier: Distribution,
    pub phase: Distribution,
    pub clock: Distribution,
    pub ended: u64,
    pub samples_per_pulse: u64,
}

#[repr(C)]
pub struct OpenResult {
    pub state: State,
    pub refusal: u64,
    pub value: u64,
}

#[repr(C)]
pub struct RunResult {
    pub state: State,
    pub draws_taken: u64,
    pub samples_written: u64,
    pub noise_used: u64,
    pub records_written: u64,
    pub stop: u64,
    pub refusal: u64,
    pub value: u64,
    pub field: u64,
    pub samples_added_high: u64,
    pub samples_added_low: u64,
}

impl RunResult {
    /// Reply samples added to working memory: the sum of the counts in the records that the call wrote.
    pub fn samples_added(&self) -> u128 {
        (u128::from(self.samples_added_high) << 64) | u128::from(self.samples_added_low)
    }
}

/// What a run will use, as C has it.
#[repr(C)]
#[derive(Clone, Copy, Debug, PartialEq)]
pub struct BookingResult {
    pub samples: u64,
    pub noise: u64,
    pub records: u64,
    pub draws_taken: u64,
    pub ended: u64,
    pub draw: u64,
    pub time: f64,
    pub refusal: u64,
    pub value: u64,
    pub field: u64,
}

const _: () = assert!(size_of::<BookingResult>() == 80);
const _: () =
    assert!(size_of::<State>() == 192 && size_of::<OpenResult>() == 208 && size_of::<RunResult>() == 272);

#[rustfmt::skip]
unsafe extern "C" {
    fn more1090_open(settings: *const u8, settings_length: usize, taps_s: *const f32, taps_s_length: usize,
        taps_ac: *const f32, taps_ac_length: usize, mode_s: *mut f32, mode_s_length: usize,
        mode_ac: *mut f32, mode_ac_length: usize, memory: *mut f32, memory_length: usize) -> OpenResult;
    fn more1090_run(state: State, mode_s: *const f32, mode_s_length: usize, mode_ac: *const f32, mode_ac_length: usize,
        memory: *mut f32, memory_length: usize, draws: *const u8, draws_length: usize,
        noise: *const f32, noise_length: usize, output: *mut f32, output_length: usize,
        records: *mut u8, records_length: usize) -> RunResult;
    fn more1090_booking(settings: *const u8, settings_length: usize, taps_s: *const f32, taps_s_length: usize,
        taps_ac: *const f32, taps_ac_length: usize, draws: *const u8, draws_length: usize) -> BookingResult;
    fn more1090_booking_part(time: f64, settings: *const u8, settings_length: usize, taps_s: *const f32, taps_s_length: usize,
        taps_ac: *const f32, taps_ac_length: usize, draws: *const u8, draws_length: usize) -> BookingResult;
    fn more1090_parity(bytes: *const u8, bytes_length: usize) -> u32;
    safe fn more1090_parity_change(place: u64) -> u32;
    safe fn more1090_flipped_bit(change: u32) -> u64;
}

/// The parity of a message.
pub fn parity(bytes: &[u8]) -> u32 {
    unsafe { more1090_parity(bytes.as_ptr(), bytes.len()) }
}

/// What flipping the bit at a place, counted back from 0 at the last bit, changes in the parity; 0 above 111.
pub fn parity_change(place: u64) -> u32 {
    more1090_parity_change(place)
}

/// The place whose flipped bit changes the parity so.
pub fn flipped_bit(change: u32) -> Option<u64> {
    Some(more1090_flipped_bit(change)).filter(|&place| place != u64::MAX)
}

/// `more1090_open`, on slices of any length.
#[rustfmt::skip]
pub fn open(settings: &[u8], taps_s: &[f32], taps_ac: &[f32],
    mode_s: &mut [f32], mode_ac: &mut [f32], memory: &mut [f32]) -> OpenResult {
    // Slices are aligned and good for their lengths, and those to be written overlap with nothing: all that is asked.
    unsafe {
        more1090_open(settings.as_ptr(), settings.len(), taps_s.as_ptr(), taps_s.len(), taps_ac.as_ptr(), taps_ac.len(),
            mode_s.as_mut_ptr(), mode_s.len(), mode_ac.as_mut_ptr(), mode_ac.len(), memory.as_mut_ptr(), memory.len())
    }
}

/// `more1090_run`, on any state and slices of any length.
#[rustfmt::skip]
pub fn run(state: State, mode_s: &[f32], mode_ac: &[f32], memory: &mut [f32],
    draws: &[u8], noise: &[f32], output: &mut [f32], records: &mut [u8]) -> RunResult {
    unsafe {
        more1090_run(state, mode_s.as_ptr(), mode_s.len(), mode_ac.as_ptr(), mode_ac.len(),
            memory.as_mut_ptr(), memory.len(), draws.as_ptr(), draws.len(), noise.as_ptr(), noise.len(),
            output.as_mut_ptr(), output.len(), records.as_mut_ptr(), records.len())
    }
}

/// `more1090_booking`, on slices of any length.
#[rustfmt::skip]
pub fn booking_result(settings: &[u8], taps_s: &[f32], taps_ac: &[f32], draws: &[u8]) -> BookingResult {
    unsafe {
        more1090_booking(settings.as_ptr(), settings.len(), taps_s.as_ptr(), taps_s.len(),
            taps_ac.as_ptr(), taps_ac.len(), draws.as_ptr(), draws.len())
    }
}

/// `more1090_booking_part`, on slices of any length.
#[rustfmt::skip]
pub fn booking_part_result(time: f64, settings: &[u8], taps_s: &[f32], taps_ac: &[f32], draws: &[u8]) -> BookingResult {
    unsafe {
        more1090_booking_part(time, settings.as_ptr(), settings.len(), taps_s.as_ptr(), taps_s.len(),
            taps_ac.as_ptr(), taps_ac.len(), draws.as_ptr(), draws.len())
    }
}

/// What a run will use: samples, noise values and records, the draws that it takes, and where they end.
#[derive(Debug, Clone, Copy, PartialEq)]
pub struct Booking {
    pub samples: u64,
    pub noise: u64,
    pub records: u64,
    pub draws_taken: u64,
    pub end: BookingEnd,
}

#[derive(Debug, Clone, Copy, PartialEq)]
pub enum BookingEnd {
    /// The index of the draw that ends the run.
    Draw(u64),
    /// No draw does: the time of the last one, from which a next part goes on.
    RanOut(f64),
}

/// What a run of these settings, filters and draws will use, or the refusal's number, value and field. No sample is made.
pub fn booking(settings: &[u8], taps_s: &[f32], taps_ac: &[f32], draws: &[u8]) -> Result<Booking, [u64; 3]> {
    booked(booking_result(settings, taps_s, taps_ac, draws))
}

/// The same for a part of the draws, from the time at which the part before ran out. Records and draws taken are added by the
/// caller; the end draw is counted in its own part.
pub fn booking_part(time: f64, settings: &[u8], taps_s: &[f32], taps_ac: &[f32], draws: &[u8]) -> Result<Booking, [u64; 3]> {
    booked(booking_part_result(time, settings, taps_s, taps_ac, draws))
}

fn booked(b: BookingResult) -> Result<Booking, [u64; 3]> {
    if b.refusal != 0 {
        return Err([b.refusal, b.value, b.field]);
    }
    let end = if b.ended == 1 { BookingEnd::Draw(b.draw) } else { BookingEnd::RanOut(b.time) };
    Ok(Booking { samples: b.samples, noise: b.noise, records: b.records, draws_taken: b.draws_taken, end })
}

pub struct Run {
    pub state: State,
    mode_s: Vec<f32>,
    mode_ac: Vec<f32>,
    memory: Vec<f32>,
}

impl Run {
    /// Opens a run, or answers the refusal's number and value.
    #[rustfmt::skip]
    pub fn open(settings: &[u8], taps_s: &[f32], taps_ac: &[f32]) -> Result<Run, (u64, u64)> {
        let lengths = SamplesPerPulse::of_settings(settings);
        let (mut mode_s, mut mode_ac) = (vec![0.0; lengths.prototype_len()], vec![0.0; lengths.prototype_len()]);
        let mut memory = vec![0.0; lengths.memory_len()];
        let o = open(settings, taps_s, taps_ac, &mut mode_s, &mut mode_ac, &mut memory);
        if o.refusal != 0 {
            return Err((o.refusal, o.value));
        }
        Ok(Run { state: o.state, mode_s, mode_ac, memory })
    }

    /// A run call; the state for the next one is kept.
    #[rustfmt::skip]
    pub fn call(&mut self, draws: &[u8], noise: &[f32], output: &mut [f32], records: &mut [u8]) -> RunResult {
        let ran = run(self.state, &self.mode_s, &self.mode_ac, &mut self.memory, draws, noise, output, records);
        self.state = ran.state;
        ran
    }

    /// The run's samples per pulse.
    pub fn samples_per_pulse(&self) -> SamplesPerPulse {
        SamplesPerPulse::of(self.state.samples_per_pulse)
    }

    /// The run between two calls as `stored_len` bytes, for `restore`.
    pub fn save(&self) -> Vec<u8> {
        self.saved(NO_RACK, &[], self.samples_per_pulse().stored_len())
    }

    /// The run and the rack behind it as `stored_rack_len` bytes, for `restore_with`.
    pub fn save_with(&self, rack: &Rack) -> Vec<u8> {
        self.saved(rack.state, &rack.memory, self.samples_per_pulse().stored_rack_len())
    }

    fn saved(&self, rack: RackState, rack_memory: &[f32], length: usize) -> Vec<u8> {
        let mut bytes = vec![0; length];
        let refusal = save_into(self.state, &self.mode_s, &self.mode_ac, &self.memory, rack, rack_memory, &mut bytes);
        assert_eq!(refusal, 0, "a run's lists have the lengths of its samples per pulse");
        bytes
    }

    /// Takes up the run that `save` gave as these bytes; it goes on with the draws not taken and the noise not used. Or answers
    /// the refusal's number, which `stored_refusal` puts into words: bytes that have changed are refused.
    pub fn restore(bytes: &[u8]) -> Result<Run, u64> {
        restored(bytes, 0).map(|(run, _)| run)
    }

    /// Takes up the run and the rack that `save_with` gave as these bytes, or answers the refusal's number.
    pub fn restore_with(bytes: &[u8]) -> Result<(Run, Rack), u64> {
        restored(bytes, RACK_MEMORY)
    }
}

/// The refusals of stored bytes, and that of a rack where none is expected or of none where one is.
pub const LENGTH: u64 = 9;
pub const STORED_LENGTH: u64 = 19;
pub const STORED_FOREIGN: u64 = 20;
pub const STORED_VERSION: u64 = 21;
pub const STORED_DAMAGED: u64 = 22;

/// A refusal of stored bytes in words.
pub fn stored_refusal(number: u64) -> &'static str {
    match number {
        LENGTH => "a rack is stored and none is expected, or the other way round",
        STORED_LENGTH => "they are cut short, or too long",
        STORED_FOREIGN => "they are no stored run",
        STORED_VERSION => "they are a run stored by another version",
        STORED_DAMAGED => "they are damaged",
        _ => "they are refused",
    }
}

const NO_RACK: RackState = RackState { feeds: 0, seen: 0, delays: [0; RACK_FEEDS], gains: [0.0; RACK_FEEDS] };

/// A run and a rack with a memory of so many f32 from bytes. Bytes of no length that a run has are refused whatever is lent.
#[rustfmt::skip]
fn restored(bytes: &[u8], rack_memory: usize) -> Result<(Run, Rack), u64> {
    let at_8 = [SamplesPerPulse::Eight.stored_len(), SamplesPerPulse::Eight.stored_rack_len()].contains(&bytes.len());
    let lengths = if at_8 { SamplesPerPulse::Eight } else { SamplesPerPulse::Four };
    let (mut mode_s, mut mode_ac) = (vec![0.0; lengths.prototype_len()], vec![0.0; lengths.prototype_len()]);
    let (mut memory, mut of_rack) = (vec![0.0; lengths.memory_len()], vec![0.0; rack_memory]);
    let r = restore_into(bytes, &mut mode_s, &mut mode_ac, &mut memory, &mut of_rack);
    if r.refusal != 0 {
        return Err(r.refusal);
    }
    Ok((Run { state: r.state, mode_s, mode_ac, memory }, Rack { state: r.rack, memory: of_rack }))
}

/// What reading a run back answers: refusal 0 is none.
#[repr(C)]
#[derive(Clone, Copy)]
pub struct RestoreResult {
    pub state: State,
    pub rack: RackState,
    pub refusal: u64,
}

const _: () = assert!(size_of::<RestoreResult>() == 408);

#[rustfmt::skip]
unsafe extern "C" {
    fn more1090_save(state: State, mode_s: *const f32, mode_s_length: usize, mode_ac: *const f32, mode_ac_length: usize,
        memory: *const f32, memory_length: usize, rack: RackState, rack_memory: *const f32, rack_memory_length: usize,
        bytes: *mut u8, bytes_length: usize) -> u64;
    fn more1090_restore(bytes: *const u8, bytes_length: usize, mode_s: *mut f32, mode_s_length: usize,
        mode_ac: *mut f32, mode_ac_length: usize, memory: *mut f32, memory_length: usize,
        rack_memory: *mut f32, rack_memory_length: usize) -> RestoreResult;
}

/// `more1090_save`, on any state and slices of any length: the refusal's number, 0 for none. With no rack's memory there is no rack.
#[rustfmt::skip]
pub fn save_into(state: State, mode_s: &[f32], mode_ac: &[f32], memory: &[f32], rack: RackState, rack_memory: &[f32], bytes: &mut [u8]) -> u64 {
    unsafe {
        more1090_save(state, mode_s.as_ptr(), mode_s.len(), mode_ac.as_ptr(), mode_ac.len(), memory.as_ptr(), memory.len(),
            rack, rack_memory.as_ptr(), rack_memory.len(), bytes.as_mut_ptr(), bytes.len())
    }
}

/// `more1090_restore`, on slices of any length.
#[rustfmt::skip]
pub fn restore_into(bytes: &[u8], mode_s: &mut [f32], mode_ac: &mut [f32], memory: &mut [f32], rack_memory: &mut [f32]) -> RestoreResult {
    unsafe {
        more1090_restore(bytes.as_ptr(), bytes.len(), mode_s.as_mut_ptr(), mode_s.len(), mode_ac.as_mut_ptr(), mode_ac.len(),
            memory.as_mut_ptr(), memory.len(), rack_memory.as_mut_ptr(), rack_memory.len())
    }
}

/// The class of a TIS-B message, which is no type.
pub const TIS_B: u8 = 7;

unsafe extern "C" {
    fn more1090_class(message: *const u8, message_length: usize) -> u8;
    fn more1090_interrogator(message: *const u8, message_length: usize, code: &mut u32) -> u32;
}

/// `more1090_class`, on bytes of any number: 255 for no class.
pub fn class_number(message: &[u8]) -> u8 {
    unsafe { more1090_class(message.as_ptr(), message.len()) }
}

/// The class of message bytes: a type's number, `TIS_B`, or none.
pub fn class(message: &[u8]) -> Option<u8> {
    Some(class_number(message)).filter(|&class| class != 255)
}

/// What a short message of DF 11 has on its parity.
#[derive(Clone, Copy, Debug, PartialEq, Eq)]
pub enum Interrogator {
    Ii(u32),
    Si(u32),
    Unassigned,
}

/// `more1090_interrogator`, on bytes of any number: the kind of the reading, and its code.
pub fn interrogator_into(message: &[u8], code: &mut u32) -> u32 {
    unsafe { more1090_interrogator(message.as_ptr(), message.len(), code) }
}

/// Which interrogator message bytes answer; none for all but short messages of DF 11.
pub fn interrogator(message: &[u8]) -> Option<Interrogator> {
    let mut code = 0;
    match interrogator_into(message, &mut code) {
        0 => None,
        1 => Some(Interrogator::Ii(code)),
        2 => Some(Interrogator::Si(code)),
        _ => Some(Interrogator::Unassigned),
    }
}

unsafe extern "C" {
    safe fn more1090_level(tenths: u64, amplitude: &mut f32) -> u64;
}

/// `more1090_level`: the refusal's number, 0 for none, and the amplitude, which a refusal leaves as it was.
pub fn level_into(tenths: u64, amplitude: &mut f32) -> u64 {
    more1090_level(tenths, amplitude)
}

/// The amplitude of a level in tenths of a decibel, or the refusal's number above 2000.
pub fn level(tenths: u64) -> Result<f32, u64> {
    let mut amplitude = 0.0;
    match level_into(tenths, &mut amplitude) {
        0 => Ok(amplitude),
        refusal => Err(refusal),
    }
}

/// The tenths of a level that is written in dB, with one digit after the point or none; a number past u64 as the largest.
pub fn tenths_of_db(text: &str) -> Option<u64> {
    let (whole, tenth) = text.split_once('.').unwrap_or((text, "0"));
    let digits = |t: &str| !t.is_empty() && t.bytes().all(|b| b.is_ascii_digit());
    if !digits(whole) || !digits(tenth) || tenth.len() != 1 {
        return None;
    }
    Some(format!("{whole}{tenth}").parse().unwrap_or(u64::MAX))
}

pub const LINE_LEN: usize = 72;
pub const PAGE_LEN: usize = 4380;
pub const PAGE_LINES: usize = 60;

#[repr(C)]
#[derive(Clone, Copy, Debug, PartialEq, Eq)]
pub struct PagesResult {
    pub refusal: u64,
    pub value: u64,
    pub pages: u64,
}

#[repr(C)]
#[derive(Clone, Copy, Debug, PartialEq, Eq)]
pub struct LineResult {
    pub found: u64,
    pub first_sample: u64,
    pub kind: u64,
    pub count: u64,
    pub message_length: u64,
}

unsafe extern "C" {
    fn more1090_pages(records: *const u8, records_length: usize, output: *mut u8, output_length: usize) -> PagesResult;
    fn more1090_page_line(line: *const u8, line_length: usize, message: *mut u8) -> LineResult;
}

/// `more1090_pages`, on slices of any length: records on paper, from the start of output on.
pub fn pages(records: &[u8], output: &mut [u8]) -> PagesResult {
    unsafe { more1090_pages(records.as_ptr(), records.len(), output.as_mut_ptr(), output.len()) }
}

/// What a record's line shows; the message in the record's order of bytes.
#[derive(Clone, Debug, PartialEq, Eq)]
pub struct Line {
    pub first_sample: u64,
    pub kind: u8,
    pub count: u16,
    pub message: Vec<u8>,
}

/// `more1090_page_line`, on bytes of any number; the whole message is written.
pub fn page_line_into(line: &[u8], message: &mut [u8; 14]) -> LineResult {
    unsafe { more1090_page_line(line.as_ptr(), line.len(), message.as_mut_ptr()) }
}

/// A line of 72 bytes, without its line feed, read back; none where it shows no type.
pub fn page_line(line: &[u8]) -> Option<Line> {
    let mut message = [0; 14];
    let read = page_line_into(line, &mut message);
    (read.found == 1).then(|| Line {
        first_sample: read.first_sample,
        kind: read.kind as u8,
        count: read.count as u16,
        message: message[..read.message_length as usize].to_vec(),
    })
}

/// How a noise section ends: with all its values fed and no byte behind them, with bytes left over, or with fewer values than its
/// count says.
#[derive(Clone, Copy, Debug, PartialEq, Eq)]
pub enum SectionEnd {
    Whole = 0,
    LeftOver = 1,
    Short = 2,
}

/// Refusal 8: a noise value out of range.
const NOISE_REFUSED: u64 = 8;

/// The most draws of a tape, and room for the text of one.
pub const MAX_TAPE_DRAWS: usize = 400;
pub const TAPE_TEXT_LEN: usize = 40960;

/// A tape's run between two chunks of noise: draws taken, records written, and what its last call answered.
#[repr(C)]
#[derive(Clone, Copy)]
pub struct TapeState {
    pub state: State,
    pub draws_taken: u64,
    pub records: u64,
    pub stop: u64,
    pub refusal: u64,
    pub value: u64,
    pub field: u64,
}

#[repr(C)]
pub struct TapeOpenResult {
    pub tape: TapeState,
    pub draws_at: u64,
    pub draws: u64,
    pub noise: u64,
}

/// How a tape ends: its records and samples; or a refusal, with the samples written before it.
#[repr(C)]
#[derive(Clone, Copy, Debug, PartialEq, Eq)]
pub struct TapeEnding {
    pub refusal: u64,
    pub value: u64,
    pub field: u64,
    pub records: u64,
    pub samples: u64,
}

const _: () =
    assert!(size_of::<TapeState>() == 240 && size_of::<TapeOpenResult>() == 264 && size_of::<TapeEnding>() == 40);

#[rustfmt::skip]
unsafe extern "C" {
    fn more1090_tape_head_length(first: *const u8, first_length: usize) -> u64;
    fn more1090_tape_open(head: *const u8, head_length: usize, mode_s: *mut f32, mode_s_length: usize,
        mode_ac: *mut f32, mode_ac_length: usize, memory: *mut f32, memory_length: usize) -> TapeOpenResult;
    fn more1090_tape_feed(tape: TapeState, mode_s: *const f32, mode_s_length: usize, mode_ac: *const f32, mode_ac_length: usize,
        memory: *mut f32, memory_length: usize, draws: *const u8, draws_length: usize, noise: *const f32, noise_length: usize,
        output: *mut f32, output_length: usize, records: *mut u8, records_length: usize) -> TapeState;
    safe fn more1090_tape_ending(tape: TapeState, end: u64) -> TapeEnding;
    fn more1090_tape_text(ending: TapeEnding, records: *const u8, records_length: usize, text: *mut u8) -> u64;
}

/// How many bytes of a tape stand before its noise, as far as its first bytes say: a reader reads on until it has as many, or
/// the tape ends.
pub fn tape_head_length(first: &[u8]) -> usize {
    unsafe { more1090_tape_head_length(first.as_ptr(), first.len()) as usize }
}

/// `more1090_tape_open`, on slices of any length.
#[rustfmt::skip]
pub fn tape_open(head: &[u8], mode_s: &mut [f32], mode_ac: &mut [f32], memory: &mut [f32]) -> TapeOpenResult {
    unsafe {
        more1090_tape_open(head.as_ptr(), head.len(), mode_s.as_mut_ptr(), mode_s.len(), mode_ac.as_mut_ptr(), mode_ac.len(),
            memory.as_mut_ptr(), memory.len())
    }
}

/// `more1090_tape_feed`, on any state and slices of any length.
#[rustfmt::skip]
pub fn tape_feed(tape: TapeState, mode_s: &[f32], mode_ac: &[f32], memory: &mut [f32],
    draws: &[u8], noise: &[f32], output: &mut [f32], records: &mut [u8]) -> TapeState {
    unsafe {
        more1090_tape_feed(tape, mode_s.as_ptr(), mode_s.len(), mode_ac.as_ptr(), mode_ac.len(),
            memory.as_mut_ptr(), memory.len(), draws.as_ptr(), draws.len(), noise.as_ptr(), noise.len(),
            output.as_mut_ptr(), output.len(), records.as_mut_ptr(), records.len())
    }
}

/// The run of a tape, with all that it needs between two chunks of noise.
pub struct Tape {
    state: TapeState,
    mode_s: Vec<f32>,
    mode_ac: Vec<f32>,
    memory: Vec<f32>,
    draws: Vec<u8>,
    records: Vec<u8>,
    noise: u64,
    /// Noise values fed, and those fed before the chunk in which the run was refused, or before the last one.
    fed: u64,
    fed_before: u64,
}

impl Tape {
    /// Opens the run of a tape by all its bytes before the noise, or answers the refusal's number, value and field.
    pub fn open(head: &[u8]) -> Result<Tape, [u64; 3]> {
        let settings = head.get(4..).unwrap_or(&[]);
        let lengths = SamplesPerPulse::of_settings(settings);
        let (mut mode_s, mut mode_ac) = (vec![0.0; lengths.prototype_len()], vec![0.0; lengths.prototype_len()]);
        let mut memory = vec![0.0; lengths.memory_len()];
        let o = tape_open(head, &mut mode_s, &mut mode_ac, &mut memory);
        if o.tape.refusal != 0 {
            return Err([o.tape.refusal, o.tape.value, o.tape.field]);
        }
        let draws = head[o.draws_at as usize..][..DRAW_LEN * o.draws as usize].to_vec();
        let records = vec![0; RECORD_LEN * MAX_TAPE_DRAWS];
        Ok(Tape { state: o.tape, mode_s, mode_ac, memory, draws, records, noise: o.noise, fed: 0, fed_before: 0 })
    }

    /// The noise values behind the head, as their count says.
    pub fn noise(&self) -> u64 {
        self.noise
    }

    /// The samples written so far.
    pub fn written(&self) -> u64 {
        self.state.state.written
    }

    pub fn samples_per_pulse(&self) -> SamplesPerPulse {
        SamplesPerPulse::of(self.state.state.samples_per_pulse)
    }

    /// Feeds it a chunk of noise, and gives the samples that come of it, which stand at the start of the output. All chunks but
    /// the last have an even number of values, and the output is even in length and longer than the chunk. The first may be
    /// empty: a run of no samples needs one.
    pub fn feed<'a>(&mut self, noise: &[f32], output: &'a mut [f32]) -> &'a [f32] {
        let before = self.written();
        if self.state.refusal == 0 {
            self.fed_before = self.fed;
        }
        self.fed += noise.len() as u64;
        self.state = tape_feed(
            self.state, &self.mode_s, &self.mode_ac, &mut self.memory, &self.draws, noise, output, &mut self.records,
        );
        &output[..2 * (self.written() - before) as usize]
    }

    /// How it ends, by how its noise section does. A noise value at fault is counted in the whole noise, and not in its chunk.
    pub fn ending(&self, end: SectionEnd) -> TapeEnding {
        let mut ending = more1090_tape_ending(self.state, end as u64);
        if ending.refusal == NOISE_REFUSED {
            ending.value += self.fed_before;
        }
        ending
    }

    /// The records of a run that ends so: none where it is refused.
    pub fn records(&self, ending: &TapeEnding) -> &[u8] {
        &self.records[..RECORD_LEN * ending.records as usize]
    }
}

/// What the tape program prints of a tape that ends so, with its records.
pub fn tape_text(ending: &TapeEnding, records: &[u8]) -> Vec<u8> {
    let mut text = vec![0; TAPE_TEXT_LEN];
    let length = unsafe { more1090_tape_text(*ending, records.as_ptr(), records.len(), text.as_mut_ptr()) };
    text.truncate(length as usize);
    text
}

/// The bytes of a log's entry: sample u64, message length u8, message u8[14].
pub const ENTRY_LEN: usize = 23;
/// No partner.
pub const NOBODY: u64 = u64::MAX;

#[repr(C)]
#[derive(Clone, Copy, Debug, PartialEq, Eq)]
pub struct LogResult {
    pub pairs: u64,
    pub unheard: u64,
    pub unsent: u64,
    pub refusal: u64,
    pub value: u64,
}

unsafe extern "C" {
    #[rustfmt::skip]
    fn more1090_compare_log(log: *const u8, log_length: usize, records: *const u8, records_length: usize, tolerance: u64,
        partners: *mut u64, partners_length: usize, owners: *mut u64, owners_length: usize) -> LogResult;
}

/// A log held against records: the counts, and the partner of each entry and of each record, or `NOBODY`.
#[derive(Clone, Debug, PartialEq, Eq)]
pub struct Heard {
    pub pairs: u64,
    pub unheard: u64,
    pub unsent: u64,
    /// Each entry's record, by its index.
    pub partners: Vec<u64>,
    /// Each record's entry, by its index.
    pub owners: Vec<u64>,
}

/// `more1090_compare_log`, with lists of the lengths that it asks for; or the refusal's number and value.
pub fn compare_log(log: &[u8], records: &[u8], tolerance: u64) -> Result<Heard, (u64, u64)> {
    let mut partners = vec![NOBODY; log.len() / ENTRY_LEN];
    let mut owners = vec![NOBODY; records.len() / RECORD_LEN];
    let r = compare_log_into(log, records, tolerance, &mut partners, &mut owners);
    match r.refusal {
        0 => Ok(Heard { pairs: r.pairs, unheard: r.unheard, unsent: r.unsent, partners, owners }),
        number => Err((number, r.value)),
    }
}

/// `more1090_compare_log`, on slices of any length.
pub fn compare_log_into(log: &[u8], records: &[u8], tolerance: u64, partners: &mut [u64], owners: &mut [u64]) -> LogResult {
    unsafe {
        more1090_compare_log(
            log.as_ptr(), log.len(), records.as_ptr(), records.len(), tolerance,
            partners.as_mut_ptr(), partners.len(), owners.as_mut_ptr(), owners.len(),
        )
    }
}

/// The most feeds of a rack, and its memory in f32.
pub const RACK_FEEDS: usize = 16;
pub const RACK_MEMORY: usize = 8190;

#[repr(C)]
#[derive(Clone, Copy, Debug, PartialEq)]
pub struct RackState {
    pub feeds: u64,
    pub seen: u64,
    pub delays: [u64; RACK_FEEDS],
    pub gains: [f32; RACK_FEEDS],
}

#[repr(C)]
#[derive(Clone, Copy, Debug, PartialEq)]
pub struct RackResult {
    pub state: RackState,
    pub refusal: u64,
}

const _: () = assert!(size_of::<RackState>() == 208 && size_of::<RackResult>() == 216);

#[rustfmt::skip]
unsafe extern "C" {
    fn more1090_rack_open(memory: *mut f32, memory_length: usize, delays: *const u64, delays_length: usize,
        gains: *const f32, gains_length: usize) -> RackResult;
    fn more1090_rack_run(rack: RackState, memory: *mut f32, memory_length: usize, samples: *const f32, samples_length: usize,
        room: *mut f32, room_length: usize) -> RackResult;
}

/// `more1090_rack_open`, on slices of any length.
#[rustfmt::skip]
pub fn rack_open(memory: &mut [f32], delays: &[u64], gains: &[f32]) -> RackResult {
    unsafe {
        more1090_rack_open(memory.as_mut_ptr(), memory.len(), delays.as_ptr(), delays.len(), gains.as_ptr(), gains.len())
    }
}

/// `more1090_rack_run`, on any state and slices of any length.
#[rustfmt::skip]
pub fn rack_run(state: RackState, memory: &mut [f32], samples: &[f32], room: &mut [f32]) -> RackResult {
    unsafe {
        more1090_rack_run(state, memory.as_mut_ptr(), memory.len(), samples.as_ptr(), samples.len(),
            room.as_mut_ptr(), room.len())
    }
}

/// A rack of delayed feeds with its memory.
pub struct Rack {
    pub state: RackState,
    memory: Vec<f32>,
}

impl Rack {
    /// Opens a rack of feeds with these delays, in samples, and gains; or answers the refusal's number.
    pub fn open(delays: &[u64], gains: &[f32]) -> Result<Rack, u64> {
        let mut memory = vec![0.0; RACK_MEMORY];
        let opened = rack_open(&mut memory, delays, gains);
        if opened.refusal != 0 {
            return Err(opened.refusal);
        }
        Ok(Rack { state: opened.state, memory })
    }

    /// Takes samples, and writes as many for each feed to `room`, feed 0's first; or answers the refusal's number.
    pub fn call(&mut self, samples: &[f32], room: &mut [f32]) -> Result<(), u64> {
        let ran = rack_run(self.state, &mut self.memory, samples, room);
        self.state = ran.state;
        if ran.refusal == 0 { Ok(()) } else { Err(ran.refusal) }
    }
}

/// What one reply alone answers: refusal 0 is none.
#[repr(C)]
#[derive(Clone, Copy, Debug, PartialEq, Eq)]
pub struct SingleResult {
    pub refusal: u64,
    pub value: u64,
    pub field: u64,
}

const _: () = assert!(size_of::<SingleResult>() == 24);

#[rustfmt::skip]
unsafe extern "C" {
    fn more1090_single(settings: *const u8, settings_length: usize, taps_s: *const f32, taps_s_length: usize,
        taps_ac: *const f32, taps_ac_length: usize, draw: *const u8, draw_length: usize,
        noise: *const f32, noise_length: usize, output: *mut f32, output_length: usize) -> SingleResult;
}

/// `more1090_single`, on slices of any length: one reply alone, its draw's gap its time, the whole stretch of samples in one
/// output. A refusal leaves the output.
#[rustfmt::skip]
pub fn single(settings: &[u8], taps_s: &[f32], taps_ac: &[f32], draw: &[u8], noise: &[f32], output: &mut [f32]) -> SingleResult {
    unsafe {
        more1090_single(settings.as_ptr(), settings.len(), taps_s.as_ptr(), taps_s.len(), taps_ac.as_ptr(), taps_ac.len(),
            draw.as_ptr(), draw.len(), noise.as_ptr(), noise.len(), output.as_mut_ptr(), output.len())
    }
}
