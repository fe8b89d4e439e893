//! A scenario: a text file of aircraft and replies, and the draws that it becomes, in the order of their times
//! (docs/SCENARIO.md).
use crate::draws::Random;
use crate::exact::ln;
use crate::messages::{Aircraft, FORMATS, Format, out_of_range, picks_of_message};
use crate::more1090_generator::{DRAW_LEN, SETTINGS_LEN, SamplesPerPulse, booking, level, tenths_of_db};
use crate::shell::{Failure, bytes_of, duration, refused};
use std::collections::BTreeSet;
use std::f64::consts::{FRAC_1_SQRT_2, LN_10, PI};

/// Times are whole numbers of this part of a sample, so that gaps and their sums are exact.
const PARTS: f64 = 1024.0;
/// Seconds from the start of a transponder's reply to that of its next: 120 microseconds of the longest one, and its dead time.
const BUSY: f64 = 250e-6;
/// The most replies a second of one aircraft, half of what `BUSY` leaves room for.
const MOST_RATE: f64 = 2000.0;
/// Replies are sent from this sample on at 4 samples per pulse: the delay of a filter is shorter.
const FIRST_SAMPLE: f64 = 32.0;
/// The largest clock error of a draw.
const CLOCK_MAX: f64 = 0.1;

/// Who sends: an aircraft, how it is received, and until when it is busy.
struct Sender {
    aircraft: Aircraft,
    cn0: f64,
    amplitude: f32,
    carrier: f64,
    clock: f64,
    phase: Option<f64>,
    jitter: f64,
    busy: u64,
}

/// What is sent: messages of a format, or one that is given.
enum What {
    Format(Format),
    Message(Vec<u8>),
}

/// A row of replies of one sender: the next one's time, the parts of a sample from one to the next, and the last time allowed.
struct Row {
    line: usize,
    sender: usize,
    what: What,
    next: u64,
    period: Option<f64>,
    end: u64,
    sent: u64,
    random: Random,
}

/// One reply, with its draw but for the gap.
pub struct Reply {
    /// In parts of a sample.
    time: u64,
    /// The draw from its type on.
    draw: Vec<u8>,
    /// Its bytes; Mode A/C high byte first.
    pub message: Vec<u8>,
    pub kind: u8,
}

impl Reply {
    /// Its time in samples.
    pub fn samples(&self) -> f64 {
        self.time as f64 / PARTS
    }

    /// The length of its message and the bytes, as a record has them: Mode A/C low byte first.
    pub fn length_and_bytes(&self) -> Vec<u8> {
        let mut bytes = self.message.clone();
        if bytes.len() == 2 {
            bytes.reverse();
        }
        bytes.insert(0, bytes.len() as u8);
        bytes
    }
}

pub struct Scenario {
    pub settings: [u8; SETTINGS_LEN],
    pub setting: SamplesPerPulse,
    pub total: u64,
    /// The seed of the noise, if there is any.
    pub noise: Option<u64>,
    /// The first line that sends all-call replies, which have the address 0.
    pub all_calls: Option<usize>,
    senders: Vec<Sender>,
    rows: Vec<Row>,
    waiting: BTreeSet<(u64, usize)>,
    last: u64,
}

/// What the line `run` says.
struct Frame {
    duration: (u64, u32),
    seed: u64,
    noise: Option<u64>,
    trigger_level: f32,
    samples_per_pulse: u8,
}

/// The words of a line: what stands first, and NAME=VALUE, each name once.
struct Line<'a> {
    number: usize,
    kind: &'a str,
    words: Vec<(&'a str, &'a str)>,
}

impl<'a> Line<'a> {
    fn of(number: usize, text: &'a str) -> Result<Option<Line<'a>>, String> {
        let mut words = text.split('#').next().unwrap_or("").split_whitespace();
        let Some(kind) = words.next() else { return Ok(None) };
        let mut line = Line { number, kind, words: Vec::new() };
        for word in words {
            let (name, value) = word.split_once('=').ok_or_else(|| format!("{word} is not NAME=VALUE"))?;
            if line.get(name).is_some() {
                return Err(format!("{name} is given twice"));
            }
            line.words.push((name, value));
        }
        Ok(Some(line))
    }

    fn get(&self, name: &str) -> Option<&'a str> {
        self.words.iter().find(|w| w.0 == name).map(|w| w.1)
    }

    /// Every name is one of these.
    fn only(&self, names: &[&[&str]]) -> Result<(), String> {
        let known = |name: &str| names.iter().any(|list| list.contains(&name));
        match self.words.iter().find(|w| !known(w.0)) {
            Some((name, _)) => Err(format!("there is no {name} in a line of {}", self.kind)),
            None => Ok(()),
        }
    }

    fn read<T: std::str::FromStr>(&self, name: &str) -> Result<Option<T>, String> {
        let read = |text: &str| text.parse().map_err(|_| format!("{name}: {text} is no number that it takes"));
        self.get(name).map(read).transpose()
    }

    /// A finite number in its range.
    fn number(&self, name: &str) -> Result<Option<f64>, String> {
        let Some(value) = self.read::<f64>(name)? else { return Ok(None) };
        in_range(name, value).map(Some)
    }
}

fn in_range(name: &str, value: f64) -> Result<f64, String> {
    let why = if value.is_finite() { out_of_range(name, value) } else { Some("is not finite") };
    why.map_or(Ok(value), |why| Err(format!("{name}: {value} {why}")))
}

const FRAME: &[&str] = &["seconds", "seed", "noise", "samples-per-pulse", "trigger-level"];
#[rustfmt::skip]
const AIRCRAFT: &[&str] = &[
    "address", "squawk", "spi", "altitude", "callsign", "latitude", "longitude", "speed", "track", "climb", "gnss-above",
    "register", "ii", "si",
];
const RECEIVED: &[&str] = &["cn0", "amplitude", "carrier", "clock", "phase"];
const REPEATED: &[&str] = &["jitter", "from", "to"];
const ONCE: &[&str] = &["at", "send", "message", "odd"];

fn frame_of(line: &Line) -> Result<Frame, String> {
    line.only(&[FRAME])?;
    let seconds = line.get("seconds").ok_or("it wants seconds")?;
    let no_duration = |_| format!("seconds: {seconds} is no number of seconds: digits, and at most nine after a point");
    Ok(Frame {
        duration: duration(seconds).map_err(no_duration)?,
        seed: line.read("seed")?.unwrap_or(1),
        noise: if line.get("noise") == Some("off") { None } else { Some(line.read("noise")?.unwrap_or(1)) },
        trigger_level: line.read("trigger-level")?.unwrap_or(0.5),
        samples_per_pulse: line.read("samples-per-pulse")?.unwrap_or(4),
    })
}

fn settings_of(frame: &Frame) -> [u8; SETTINGS_LEN] {
    let mut s = Vec::new();
    s.extend(frame.duration.0.to_le_bytes());
    s.extend(frame.duration.1.to_le_bytes());
    s.extend(1f64.to_le_bytes().repeat(7));
    // Each draw has its own carrier, phase and clock error: those of the second kind are the draw's, times a sigma of 1.
    let highest = SamplesPerPulse::of(frame.samples_per_pulse.into()).sample_rate() as f64 / 2.0;
    for [first, second] in [[1.0, highest], [0.0, 0.0], [CLOCK_MAX, 0.0]] {
        s.push(1);
        s.extend(first.to_le_bytes());
        s.extend(second.to_le_bytes());
    }
    s.extend(frame.trigger_level.to_le_bytes());
    s.push(frame.samples_per_pulse);
    s.try_into().unwrap_or([0; SETTINGS_LEN])
}

/// Four octal digits.
fn squawk_of(text: &str) -> Result<u16, String> {
    let octal = text.len() == 4 && text.bytes().all(|b| (b'0'..=b'7').contains(&b));
    u16::from_str_radix(text, 8).ok().filter(|_| octal).ok_or_else(|| format!("squawk: {text} is not four digits from 0 to 7"))
}

fn address_of(text: &str) -> Result<u32, String> {
    let hex = text.len() == 6 && text.bytes().all(|b| b.is_ascii_hexdigit());
    u32::from_str_radix(text, 16).ok().filter(|_| hex).ok_or_else(|| format!("address: {text} is not six hexadecimal digits"))
}

/// Up to eight letters and digits, with `_` for a blank; blanks behind them.
fn callsign_of(text: &str) -> Result<[u8; 8], String> {
    let fine = text.len() <= 8 && text.bytes().all(|b| b.is_ascii_uppercase() || b.is_ascii_digit() || b == b'_');
    let padded = format!("{text:8}").replace('_', " ").into_bytes();
    let wrong = || format!("callsign: {text} is not up to eight of A to Z, 0 to 9 and _");
    padded.try_into().ok().filter(|_| fine).ok_or_else(wrong)
}

fn position_of(line: &Line) -> Result<Option<(f64, f64)>, String> {
    match (line.number("latitude")?, line.number("longitude")?) {
        (Some(north), Some(east)) => Ok(Some((north, east))),
        (None, None) => Ok(None),
        _ => Err("latitude and longitude go together".into()),
    }
}

/// The 56 bits of a register.
fn register_of(text: &str) -> Result<u64, String> {
    let hex = text.len() == 14 && text.bytes().all(|b| b.is_ascii_hexdigit());
    u64::from_str_radix(text, 16).ok().filter(|_| hex).ok_or_else(|| format!("register: {text} is not 14 hexadecimal digits"))
}

/// An interrogator's code as an overlay (SPECIFICATION 7.10).
fn overlay_of(line: &Line) -> Result<Option<u8>, String> {
    match (line.read::<u8>("ii")?, line.read::<u8>("si")?) {
        (Some(_), Some(_)) => Err("ii and si are one or the other".into()),
        (Some(0), None) => Err("ii: the reply to interrogator code 0 is df11".into()),
        (Some(ii), None) if ii <= 15 => Ok(Some(ii)),
        (None, Some(si)) if (1..=63).contains(&si) => Ok(Some(16 + si)),
        (None, None) => Ok(None),
        (Some(ii), _) => Err(format!("ii: {ii} is not from 1 to 15")),
        (_, Some(si)) => Err(format!("si: {si} is not from 1 to 63")),
    }
}

fn aircraft_of(line: &Line) -> Result<Aircraft, String> {
    let speed = line.number("speed")?;
    let track = line.number("track")?;
    if speed.is_none() && track.is_some() {
        return Err("track wants a speed".into());
    }
    let spi: u8 = line.read("spi")?.unwrap_or(0);
    if spi > 1 {
        return Err(format!("spi: {spi} is not 0 or 1"));
    }
    Ok(Aircraft {
        address: line.get("address").map(address_of).transpose()?,
        squawk: line.get("squawk").map(squawk_of).transpose()?,
        spi: spi == 1,
        altitude: line.number("altitude")?,
        callsign: line.get("callsign").map(callsign_of).transpose()?,
        position: position_of(line)?,
        velocity: speed.map(|speed| (speed, track.unwrap_or(0.0))),
        climb: line.number("climb")?.unwrap_or(0.0),
        gnss_above: line.number("gnss-above")?,
        register: line.get("register").map(register_of).transpose()?,
        overlay: overlay_of(line)?,
    })
}

/// C/N0 in dB Hz and amplitude: a level of the library (SPECIFICATION 6.15), which at 8 samples per pulse has half the power; or
/// an amplitude, and the C/N0 that it has.
fn level_of(line: &Line, setting: SamplesPerPulse) -> Result<(f64, f32), String> {
    const AMPLITUDE_OF_0_DB: f64 = 1.0 / 2_048_000.0;
    let part = if setting == SamplesPerPulse::Eight { FRAC_1_SQRT_2 } else { 1.0 };
    match (line.get("cn0"), line.read::<f32>("amplitude")?) {
        (Some(_), Some(_)) => Err("cn0 and amplitude are one or the other".into()),
        (None, None) => Err("it wants cn0 or amplitude".into()),
        (Some(text), None) => {
            let wrong = || format!("cn0: {text} is not in dB with one digit after the point or none");
            let tenths = tenths_of_db(text).ok_or_else(wrong)?;
            let amplitude = level(tenths).map_err(|_| format!("cn0: {text} is above 200.0 dB"))?;
            Ok((tenths as f64 / 10.0, (f64::from(amplitude) * part) as f32))
        }
        (None, Some(amplitude)) => {
            let ratio = f64::from(amplitude) / (part * AMPLITUDE_OF_0_DB);
            let shown = ratio.is_normal() && ratio > 0.0;
            Ok((if shown { 20.0 * ln(ratio) / LN_10 } else { 0.0 }, amplitude))
        }
    }
}

fn sender_of(line: &Line, setting: SamplesPerPulse) -> Result<Sender, String> {
    let (cn0, amplitude) = level_of(line, setting)?;
    let carrier = line.number("carrier")?.unwrap_or(0.0);
    // The generator would cut it off there.
    let highest = setting.sample_rate() as f64 / 2.0;
    if carrier.abs() > highest {
        return Err(format!("carrier: {carrier} is above {highest} Hz in size"));
    }
    let jitter = line.number("jitter")?.unwrap_or(0.2);
    if !(0.0..=1.0).contains(&jitter) {
        return Err(format!("jitter: {jitter} is not from 0 to 1"));
    }
    let clock = line.number("clock")?.unwrap_or(0.0);
    Ok(Sender { aircraft: aircraft_of(line)?, cn0, amplitude, carrier, clock, phase: line.number("phase")?, jitter, busy: 0 })
}

/// Seconds as parts of a sample.
fn parts_of(seconds: f64, setting: SamplesPerPulse) -> u64 {
    (seconds * setting.sample_rate() as f64 * PARTS).round() as u64
}

impl Scenario {
    /// The scenario of a file's text, checked; `name` is what its messages call the file.
    pub fn of(name: &str, text: &str) -> Result<Scenario, Failure> {
        let at = |number: usize, why: String| Failure::Refused(format!("{name}, line {number}: {why}"));
        let mut lines = Vec::new();
        for (k, text) in text.lines().enumerate() {
            lines.extend(Line::of(k + 1, text).map_err(|why| at(k + 1, why))?);
        }
        let first = lines.first().filter(|l| l.kind == "run");
        let first = first.ok_or_else(|| Failure::Refused(format!("{name}: its first line is not `run seconds=..`")))?;
        let frame = frame_of(first).map_err(|why| at(first.number, why))?;
        let mut made = Scenario::empty(&frame).map_err(|e| match e {
            Failure::Refused(why) => at(first.number, why),
            other => other,
        })?;
        for line in &lines[1..] {
            made.add(line, &frame).map_err(|why| at(line.number, why))?;
        }
        made.check(|line, why| at(line, why))?;
        for (k, row) in made.rows.iter().enumerate() {
            made.waiting.insert((row.next, k));
        }
        Ok(made)
    }

    /// The run alone, without replies. Its settings are checked by the library.
    fn empty(frame: &Frame) -> Result<Scenario, Failure> {
        let settings = settings_of(frame);
        let setting = SamplesPerPulse::of_settings(&settings);
        // Without taps, 5 says that nothing is wrong with the settings.
        match booking(&settings, &[], &[], &[]) {
            Err([number, value, field]) if number != NO_TAPS => return Err(refused(number, value, field)),
            _ => (),
        }
        let (seconds, nanoseconds) = (u128::from(frame.duration.0), u128::from(frame.duration.1));
        let total = (seconds * 1_000_000_000 + nanoseconds) * u128::from(setting.sample_rate()) / 1_000_000_000;
        Ok(Scenario {
            settings,
            setting,
            total: total as u64,
            noise: frame.noise,
            all_calls: None,
            senders: Vec::new(),
            rows: Vec::new(),
            waiting: BTreeSet::new(),
            last: 0,
        })
    }

    /// The first and the last time of a reply, in parts of a sample: each of those between is added whole.
    fn window(&self) -> (u64, u64) {
        let pulses = f64::from(self.setting as u8) / 4.0;
        let last = self.total.saturating_sub(self.setting.reply_limit() as u64 + 1);
        ((FIRST_SAMPLE * pulses * PARTS) as u64, last * PARTS as u64)
    }

    fn add(&mut self, line: &Line, frame: &Frame) -> Result<(), String> {
        match line.kind {
            "aircraft" => self.add_aircraft(line, frame),
            "reply" => self.add_reply(line, frame),
            "run" => Err("a scenario has one line of run".into()),
            other => Err(format!("{other}: a line begins with run, aircraft or reply")),
        }
    }

    /// A row of replies for each format that has a rate.
    fn add_aircraft(&mut self, line: &Line, frame: &Frame) -> Result<(), String> {
        let names = FORMATS.map(|f| f.0);
        line.only(&[AIRCRAFT, RECEIVED, REPEATED, &names])?;
        let sender = sender_of(line, self.setting)?;
        let (first, last) = self.window();
        let from = parts_of(line.number("from")?.unwrap_or(0.0), self.setting).max(first);
        let end = line.number("to")?.map_or(last, |to| parts_of(to, self.setting).min(last));
        let mut rates = 0.0;
        for (k, (name, format)) in FORMATS.iter().enumerate() {
            let Some(rate) = line.number(name)?.filter(|rate| *rate != 0.0) else { continue };
            rates += rate;
            if rate < 0.0 || rates > MOST_RATE {
                return Err(format!("{name}: an aircraft sends from 0 to {MOST_RATE} replies a second in all"));
            }
            self.lacking(line, &sender.aircraft, *format, name)?;
            let mut random = stream(frame.seed, self.senders.len(), k);
            let period = self.setting.sample_rate() as f64 * PARTS / rate;
            let next = from.saturating_add((random.uniform() * period) as u64);
            let what = What::Format(*format);
            let sender = self.senders.len();
            self.rows.push(Row { line: line.number, sender, what, next, period: Some(period), end, sent: 0, random });
        }
        if rates == 0.0 {
            return Err(format!("it sends nothing: it wants a rate, as {}=1", names[0]));
        }
        self.senders.push(sender);
        Ok(())
    }

    fn add_reply(&mut self, line: &Line, frame: &Frame) -> Result<(), String> {
        line.only(&[AIRCRAFT, RECEIVED, ONCE])?;
        let sender = sender_of(line, self.setting)?;
        let at = line.number("at")?.ok_or("it wants at, the time in seconds")?;
        let (first, end) = self.window();
        let next = parts_of(at, self.setting);
        if !(first..=end).contains(&next) {
            let seconds = |parts: u64| parts as f64 / PARTS / self.setting.sample_rate() as f64;
            return Err(format!("at: {at} is not from {} to {} seconds, where a reply is whole", seconds(first), seconds(end)));
        }
        let what = match (line.get("send"), line.get("message")) {
            (Some(name), None) => {
                let format = FORMATS.iter().find(|f| f.0 == name).ok_or_else(|| format!("send: there is no format {name}"))?.1;
                self.lacking(line, &sender.aircraft, format, name)?;
                What::Format(format)
            }
            (None, Some(hex)) => {
                let bytes = bytes_of(hex).map_err(|_| format!("message: {hex} is not in hexadecimal digits, two a byte"))?;
                picks_of_message(&bytes).map_err(|why| format!("message: {why}"))?;
                What::Message(bytes)
            }
            _ => return Err("it wants send or message, and one of them".into()),
        };
        // A position's first frame is even, its second odd.
        let sent = line.read("odd")?.unwrap_or(0);
        let random = stream(frame.seed, self.senders.len(), 0);
        self.rows.push(Row { line: line.number, sender: self.senders.len(), what, next, period: None, end, sent, random });
        self.senders.push(sender);
        Ok(())
    }

    /// Refuses a format that the aircraft lacks something for.
    fn lacking(&mut self, line: &Line, aircraft: &Aircraft, format: Format, name: &str) -> Result<(), String> {
        if format == Format::AllCall {
            self.all_calls = self.all_calls.or(Some(line.number));
        }
        aircraft.lacks(format).map_or(Ok(()), |what| Err(format!("{name} wants {what}")))
    }

    /// One draw of each row is held against the library's ranges.
    fn check(&self, at: impl Fn(usize, String) -> Failure) -> Result<(), Failure> {
        const NAMES: [&str; 7] = ["gap", "type", "cn0", "amplitude", "carrier", "phase", "clock"];
        let draws: Vec<u8> = self.rows.iter().flat_map(|row| draw_of(0.0, &self.reply(row, 0, 0.0).draw)).collect();
        let (taps_s, taps_ac) = crate::exact::lowpasses(self.setting);
        match booking(&self.settings, &taps_s, &taps_ac, &draws) {
            Err([7, k, field]) => {
                let name = NAMES.get(field as usize).copied().unwrap_or("message");
                Err(at(self.rows[k as usize].line, format!("{name} is out of range")))
            }
            Err([number, value, field]) => Err(refused(number, value, field)),
            Ok(_) => Ok(()),
        }
    }

    /// The reply of a row at a time, in parts of a sample, with a phase drawn from -PI on to below PI.
    fn reply(&self, row: &Row, time: u64, drawn: f64) -> Reply {
        let sender = &self.senders[row.sender];
        let seconds = time as f64 / PARTS / self.setting.sample_rate() as f64;
        // A single reply says where its aircraft is when it is sent.
        let flown = row.period.map_or(0.0, |_| seconds);
        let message = match &row.what {
            What::Message(message) => message.clone(),
            What::Format(format) => sender.aircraft.after(flown).message(*format, row.sent % 2 == 1),
        };
        let (kind, picks, overlay) = picks_of_message(&message).unwrap_or_default();
        let mut draw = vec![kind];
        draw.extend(sender.cn0.to_le_bytes());
        draw.extend(sender.amplitude.to_le_bytes());
        for number in [sender.carrier, sender.phase.unwrap_or(drawn), sender.clock] {
            draw.extend(number.to_le_bytes());
        }
        draw.extend(picks.bytes(overlay));
        Reply { time, draw, message, kind }
    }

    /// The bytes of a reply's draw, behind the reply before it.
    pub fn draw(&mut self, reply: &Reply) -> Vec<u8> {
        let gap = (reply.time - self.last) as f64 / PARTS;
        self.last = reply.time;
        draw_of(gap, &reply.draw)
    }

    /// A draw that ends the run behind all replies: its gap alone is longer than the run.
    pub fn end_draw(&self) -> Vec<u8> {
        const SHORT_WITH_ADDRESS: u8 = 2;
        let mut draw = vec![0; DRAW_LEN - 8];
        draw[0] = SHORT_WITH_ADDRESS;
        draw_of((self.total + self.setting.reply_limit() as u64) as f64, &draw)
    }
}

/// A refusal of the taps: none were passed.
const NO_TAPS: u64 = 5;

fn draw_of(gap: f64, behind: &[u8]) -> Vec<u8> {
    [&gap.to_le_bytes(), behind].concat()
}

/// The random numbers of a format of a sender: those of the others do not depend on it.
fn stream(seed: u64, sender: usize, format: usize) -> Random {
    Random(Random(Random(seed).next() ^ (sender * FORMATS.len() + format) as u64).next())
}

impl Iterator for Scenario {
    type Item = Reply;

    /// The next reply by time, and among equal times by the lines' order.
    fn next(&mut self) -> Option<Reply> {
        loop {
            let (time, k) = self.waiting.pop_first()?;
            let busy = self.senders[self.rows[k].sender].busy;
            if time > self.rows[k].end {
                continue;
            }
            if time < busy {
                self.waiting.insert((busy, k));
                continue;
            }
            let drawn = (2.0 * self.rows[k].random.uniform() - 1.0) * PI;
            let reply = self.reply(&self.rows[k], time, drawn);
            let (row, rate) = (&mut self.rows[k], self.setting.sample_rate() as f64);
            let sender = &mut self.senders[row.sender];
            sender.busy = time + (BUSY * rate * PARTS) as u64;
            row.sent += 1;
            if let Some(period) = row.period {
                let jitter = sender.jitter * (2.0 * row.random.uniform() - 1.0);
                row.next = row.next.saturating_add((period * (1.0 + jitter)) as u64).max(time);
                self.waiting.insert((row.next, k));
            }
            return Some(reply);
        }
    }
}
