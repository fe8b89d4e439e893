//! The text file of a soak: a line for each thing, its key first. docs/SOAK.md has the keys.
use super::drawn::usual_rates;
use crate::draws::{CLOCK_MAX, Level};
use crate::more1090_generator::{RACK_FEEDS, RACK_MEMORY, SETTINGS_LEN, SamplesPerPulse, level, rack_open, tenths_of_db};
use crate::shell::{self, Failure, duration, refused};
use std::net::SocketAddr;
use std::path::{Path, PathBuf};
use std::time::Duration;

/// Where a feed's samples go.
#[derive(Clone, Debug, PartialEq)]
pub enum Target {
    File(PathBuf),
    Pipe(PathBuf),
    /// A shell's words, and the folder that it runs in.
    Command(String, PathBuf),
    Listen(SocketAddr),
}

#[derive(Clone, Debug)]
pub struct Feed {
    pub delay: u64,
    pub gain: f32,
    pub target: Target,
    /// As the file names it.
    pub name: String,
}

impl Feed {
    pub fn is_file(&self) -> bool {
        matches!(self.target, Target::File(_))
    }
}

/// What ends where a feed's file cannot be written.
#[derive(Clone, Copy, Debug, PartialEq)]
pub enum Ends {
    Run,
    Feed,
}

pub struct Config {
    pub settings: [u8; SETTINGS_LEN],
    pub rates: [f64; 7],
    pub level: Option<Level>,
    pub clock_max: f64,
    pub samples_per_pulse: SamplesPerPulse,
    pub seed: u64,
    pub feeds: Vec<Feed>,
    pub records: Option<PathBuf>,
    pub checkpoint: PathBuf,
    pub interval: Duration,
    /// The bytes that wait for a feed that is no file.
    pub buffer: usize,
    /// How long a full buffer may wait for a reader that takes nothing.
    pub patience: Option<Duration>,
    /// How long readers are waited for before the first sample.
    pub wait: Duration,
    pub file_ends: Ends,
    /// What decides samples and records, a line for each thing: a checkpoint is good for one such text.
    pub text: String,
}

/// A line of the file: its number, its key, and what is behind that.
#[derive(Clone)]
struct Line {
    number: usize,
    key: String,
    rest: String,
}

/// The file's lines, and its name for what is said of them.
struct Lines {
    name: String,
    lines: Vec<Line>,
}

const KEYS: [&str; 18] = [
    "duration", "seed", "replies", "rates", "level", "trigger-level", "samples-per-pulse", "carrier", "phase", "clock",
    "records", "checkpoint", "interval", "buffer", "patience", "wait", "full-disk", "feed",
];

/// Wrong words of a line, or of the whole file where there is no line.
fn wrong(name: &str, line: Option<&Line>, what: &str) -> Failure {
    Failure::Use(match line {
        Some(line) => format!("{name}:{}: {}: {what}", line.number, line.key),
        None => format!("{name}: {what}"),
    })
}

impl Lines {
    fn read(name: &str, text: &str) -> Result<Lines, Failure> {
        let mut lines: Vec<Line> = Vec::new();
        for (number, text) in text.lines().enumerate() {
            let text = text.trim();
            if text.is_empty() || text.starts_with('#') {
                continue;
            }
            let (key, rest) = text.split_once(char::is_whitespace).unwrap_or((text, ""));
            let line = Line { number: number + 1, key: key.into(), rest: rest.trim().into() };
            if !KEYS.contains(&key) {
                return Err(wrong(name, Some(&line), "there is no such key"));
            }
            if key != "feed" && let Some(before) = lines.iter().find(|l| l.key == key) {
                return Err(wrong(name, Some(&line), &format!("it stands in line {} already", before.number)));
            }
            lines.push(line);
        }
        Ok(Lines { name: name.into(), lines })
    }

    fn find(&self, key: &str) -> Option<&Line> {
        self.lines.iter().find(|l| l.key == key)
    }

    fn wrong(&self, key: &str, what: &str) -> Failure {
        wrong(&self.name, self.find(key), what)
    }

    /// What a key says, read by a function; another value where there is no such line.
    fn value<T>(&self, key: &str, other: Option<T>, read: impl Fn(&str) -> Option<T>, wanted: &str) -> Result<T, Failure> {
        match (self.find(key), other) {
            (Some(line), _) => read(&line.rest).ok_or_else(|| self.wrong(key, &format!("{} is not {wanted}", line.rest))),
            (None, Some(other)) => Ok(other),
            (None, None) => Err(wrong(&self.name, None, &format!("there is no line `{key}`"))),
        }
    }

    /// A refusal of the library, with the line that it is about.
    fn refused(&self, number: u64, value: u64) -> Failure {
        let rates = if self.find("rates").is_some() { "rates" } else { "replies" };
        let key = match number {
            1 => "duration",
            2 | 3 => rates,
            4 => ["carrier", "phase", "clock"][value.min(2) as usize],
            13 => "level",
            14 => "trigger-level",
            _ => "samples-per-pulse",
        };
        match (refused(number, value, 0), self.find(key)) {
            (Failure::Refused(why), Some(line)) => Failure::Refused(format!("{}:{}: {key}: {why}", self.name, line.number)),
            (failure, _) => failure,
        }
    }
}

fn plain<T: std::str::FromStr>(text: &str) -> Option<T> {
    text.parse().ok()
}

fn all<T: std::str::FromStr>(text: &str) -> Option<Vec<T>> {
    text.split_whitespace().map(plain).collect()
}

/// A distribution's kind and two numbers, from words: `constant` with its value, or another with as many numbers as it has.
fn distribution(text: &str, drawn: &str, numbers: usize) -> Option<(u8, f64, f64)> {
    let (word, rest) = text.split_once(char::is_whitespace).unwrap_or((text, ""));
    let values: Vec<f64> = all(rest)?;
    let value = |k: usize| values.get(k).copied().unwrap_or(0.0);
    match word {
        "constant" if values.len() == 1 => Some((0, value(0), 0.0)),
        word if word == drawn && values.len() == numbers => Some((1, value(0), value(1))),
        _ => None,
    }
}

pub fn seconds(text: &str) -> Option<Duration> {
    duration(text).ok().map(|(seconds, nanoseconds)| Duration::new(seconds, nanoseconds))
}

/// The most that a feed may buffer: 16 GiB, in MiB.
const MOST_BUFFER: usize = 1 << 14;
const MEBI: usize = 1 << 20;

fn target(kind: &str, name: &str, folder: &Path) -> Result<Target, String> {
    match kind {
        "file" => Ok(Target::File(folder.join(name))),
        "pipe" => Ok(Target::Pipe(folder.join(name))),
        "command" => Ok(Target::Command(name.into(), folder.into())),
        "listen" => match name.parse::<SocketAddr>() {
            Ok(address) if address.ip().is_loopback() => Ok(Target::Listen(address)),
            Ok(_) => Err(format!("{name} is no loopback address: 127.0.0.1:PORT or [::1]:PORT")),
            Err(_) => Err(format!("{name} is not ADDRESS:PORT")),
        },
        _ => Err(format!("{kind} is not file, pipe, command or listen")),
    }
}

/// The first word, and what is behind it.
fn word<'a>(text: &'a str, what: &str) -> Result<(&'a str, &'a str), String> {
    let (word, rest) = text.split_once(char::is_whitespace).unwrap_or((text, ""));
    match word {
        "" => Err(format!("{what} is missing: DELAY GAIN KIND NAME")),
        word => Ok((word, rest.trim_start())),
    }
}

fn feed(text: &str, folder: &Path) -> Result<Feed, String> {
    let (delay, rest) = word(text, "the delay")?;
    let (gain, rest) = word(rest, "the gain")?;
    let (kind, name) = word(rest, "the kind")?;
    word(name, "the name")?;
    Ok(Feed {
        delay: plain(delay).ok_or(format!("{delay} is no delay in samples"))?,
        gain: plain(gain).ok_or(format!("{gain} is no gain"))?,
        target: target(kind, name, folder)?,
        name: format!("{kind} {name}"),
    })
}

/// Whether the library takes the feed, each alone so that the line at fault is known.
fn taken(feed: &Feed) -> Result<(), Failure> {
    match rack_open(&mut vec![0.0; RACK_MEMORY], &[feed.delay], &[feed.gain]).refusal {
        0 => Ok(()),
        number => Err(refused(number, 0, 0)),
    }
}

fn feeds(lines: &Lines, folder: &Path) -> Result<Vec<Feed>, Failure> {
    let mut feeds: Vec<Feed> = Vec::new();
    for line in lines.lines.iter().filter(|l| l.key == "feed") {
        let at = |what: &str| wrong(&lines.name, Some(line), what);
        let feed = feed(&line.rest, folder).map_err(|what| at(&what))?;
        if let Err(Failure::Refused(_)) = taken(&feed) {
            let why = "refused 17: a delay is 0 to 4095 samples, and a gain 0 to 1";
            return Err(Failure::Refused(format!("{}:{}: feed: {why}", lines.name, line.number)));
        }
        if !matches!(feed.target, Target::Command(..)) && feeds.iter().any(|f| f.target == feed.target) {
            return Err(at(&format!("{} has a feed already", feed.name)));
        }
        if feeds.len() == RACK_FEEDS {
            return Err(at("it is the seventeenth, and a rack has up to sixteen"));
        }
        feeds.push(feed);
    }
    if feeds.is_empty() {
        return Err(wrong(&lines.name, None, "there is no line `feed`"));
    }
    Ok(feeds)
}

/// The rates by type, from one of two keys.
fn rates(lines: &Lines) -> Result<[f64; 7], Failure> {
    match (lines.find("replies"), lines.find("rates")) {
        (Some(_), Some(line)) => Err(wrong(&lines.name, Some(line), "`replies` says the rates already")),
        (_, Some(_)) => {
            let seven = |text: &str| all::<f64>(text)?.try_into().ok();
            lines.value("rates", None, seven, "seven numbers of replies a second, by type")
        }
        _ => Ok(usual_rates(lines.value("replies", None, plain, "a number of replies a second")?)),
    }
}

/// The level of every reply, or none where each has its own.
fn level_of(lines: &Lines, samples_per_pulse: SamplesPerPulse) -> Result<Option<Level>, Failure> {
    let read = |text: &str| if text == "distance" { Some(None) } else { tenths_of_db(text).map(Some) };
    let wanted = "`distance`, or dB with one digit after the point or none";
    let Some(tenths) = lines.value("level", Some(None), read, wanted)? else { return Ok(None) };
    if samples_per_pulse == SamplesPerPulse::Eight {
        return Err(lines.wrong("level", "levels are those of 4 samples per pulse"));
    }
    let amplitude = level(tenths).map_err(|number| lines.refused(number, 0))?;
    Ok(Some(Level { cn0: tenths as f64 / 10.0, amplitude }))
}

/// What a run is opened with, as the file says it.
struct Asked {
    duration: (u64, u32),
    rates: [f64; 7],
    carrier: (u8, f64, f64),
    phase: (u8, f64, f64),
    clock: (u8, f64, f64),
    trigger_level: f32,
    samples_per_pulse: u8,
}

impl Asked {
    fn read(lines: &Lines) -> Result<Asked, Failure> {
        let drawn = |key: &str, other, word: &'static str, numbers, wanted: &str| {
            lines.value(key, Some(other), |t| distribution(t, word, numbers), wanted)
        };
        Ok(Asked {
            rates: rates(lines)?,
            duration: lines.value("duration", None, |t| duration(t).ok(), "seconds in digits, with at most nine after a point")?,
            carrier: drawn("carrier", (1, 100e3, 1e6), "normal", 2, "`constant HZ` or `normal SIGMA MAX`")?,
            phase: drawn("phase", (1, 0.0, 0.0), "uniform", 0, "`constant RADIANS` or `uniform`")?,
            clock: drawn("clock", (1, CLOCK_MAX, 0.0), "uniform", 1, "`constant E` or `uniform MAX`")?,
            trigger_level: lines.value("trigger-level", Some(0.5), plain, "a part of a pulse's height")?,
            samples_per_pulse: lines.value("samples-per-pulse", Some(4), plain, "a number of samples per pulse, 4 or 8")?,
        })
    }

    /// The settings' bytes (SPECIFICATION 4.1).
    fn settings(&self) -> [u8; SETTINGS_LEN] {
        let mut s = self.duration.0.to_le_bytes().to_vec();
        s.extend(self.duration.1.to_le_bytes());
        s.extend(self.rates.iter().flat_map(|rate| rate.to_le_bytes()));
        for (kind, first, second) in [self.carrier, self.phase, self.clock] {
            s.push(kind);
            s.extend([first, second].iter().flat_map(|x| x.to_le_bytes()));
        }
        s.extend(self.trigger_level.to_le_bytes());
        s.push(self.samples_per_pulse);
        s.try_into().unwrap()
    }

    /// The same in lines. Numbers are written with all their digits.
    fn text(&self) -> String {
        let mut text = format!("duration {}.{:09}\nrates", self.duration.0, self.duration.1);
        self.rates.iter().for_each(|rate| text += &format!(" {rate}"));
        for (key, (kind, first, second)) in [("carrier", self.carrier), ("phase", self.phase), ("clock", self.clock)] {
            text += &format!("\n{key} {kind} {first} {second}");
        }
        text + &format!("\ntrigger-level {}\nsamples-per-pulse {}\n", self.trigger_level, self.samples_per_pulse)
    }
}

/// What a checkpoint is good for, a line for each thing. Names of pipes, commands and addresses may change between two starts.
fn text_of(asked: &Asked, seed: u64, level: Option<Level>, feeds: &[Feed], records: Option<&str>) -> String {
    let level = level.map_or("distance".into(), |l| format!("{}", l.cn0));
    let records = records.map_or("no records".into(), |name| format!("records {name}"));
    let mut text = asked.text() + &format!("seed {seed}\nlevel {level}\n{records}\n");
    for f in feeds {
        text += &format!("feed {} {} {}\n", f.delay, f.gain, if f.is_file() { &f.name } else { "live" });
    }
    text
}

/// Reads a soak's file; `name` is its name in messages, and what it names is beside it.
pub fn read(name: &str, text: &str) -> Result<Config, Failure> {
    let lines = Lines::read(name, text)?;
    let folder = Path::new(name).parent().filter(|p| !p.as_os_str().is_empty()).unwrap_or(Path::new("."));
    let asked = Asked::read(&lines)?;
    let settings = asked.settings();
    let opened = super::source::opened(&settings).map_err(|(number, value)| lines.refused(number, value))?;
    let samples_per_pulse = opened.samples_per_pulse();
    let seed = lines.value("seed", Some(1), plain, "a whole number below 2^64")?;
    let level = level_of(&lines, samples_per_pulse)?;
    let feeds = feeds(&lines, folder)?;
    let records = lines.find("records").map(|_| named(&lines, "records")).transpose()?;
    let checkpoint = named(&lines, "checkpoint")?;
    let mebi = |t: &str| plain(t).filter(|n| (1..=MOST_BUFFER).contains(n));
    let ends = |t: &str| [("run", Ends::Run), ("feed", Ends::Feed)].iter().find(|(word, _)| *word == t).map(|(_, e)| *e);
    let config = Config {
        text: text_of(&asked, seed, level, &feeds, records.as_deref()),
        settings,
        rates: asked.rates,
        level,
        clock_max: if asked.clock.0 == 1 { asked.clock.1 } else { 0.0 },
        samples_per_pulse,
        seed,
        feeds,
        records: records.map(|name| folder.join(name)),
        checkpoint: folder.join(checkpoint),
        interval: lines.value("interval", Some(Duration::from_secs(60)), seconds, "a number of seconds")?,
        buffer: lines.value("buffer", Some(16), mebi, "a number of MiB, 1 to 16384")? * MEBI,
        patience: lines.value("patience", Some(None), |t| seconds(t).map(Some), "a number of seconds")?,
        wait: lines.value("wait", Some(Duration::ZERO), seconds, "a number of seconds")?,
        file_ends: lines.value("full-disk", Some(Ends::Run), ends, "`run` or `feed`")?,
    };
    names_apart(&lines, &config)?;
    Ok(config)
}

fn named(lines: &Lines, key: &str) -> Result<String, Failure> {
    let name = |text: &str| (!text.is_empty() && !text.ends_with('/')).then(|| text.into());
    lines.value(key, None, name, "the name of a file")
}

/// The files of a soak: its checkpoint under each of its names, the records, and those of feeds.
fn names(config: &Config) -> Vec<(&'static str, PathBuf)> {
    let mut names: Vec<_> = super::checkpoint::names(&config.checkpoint).map(|name| ("checkpoint", name)).into();
    names.extend(config.records.iter().map(|name| ("records", name.clone())));
    for feed in &config.feeds {
        if let Target::File(name) | Target::Pipe(name) = &feed.target {
            names.push(("feed", name.clone()));
        }
    }
    names
}

/// Refuses two names of one file.
fn names_apart(lines: &Lines, config: &Config) -> Result<(), Failure> {
    let names = names(config);
    for (k, (key, name)) in names.iter().enumerate() {
        if names[..k].iter().any(|(_, other)| one_file(name, other)) {
            return Err(lines.wrong(key, &format!("{} is another file of this soak too", name.display())));
        }
    }
    Ok(())
}

fn one_file(one: &Path, other: &Path) -> bool {
    shell::apart(&one.display().to_string(), &other.display().to_string()).is_err()
}

/// Refuses a status file that is a file of the soak.
pub fn apart(config: &Config, status: &str) -> Result<(), Failure> {
    match names(config).iter().any(|(_, name)| one_file(name, Path::new(status))) {
        true => Err(Failure::Use(format!("--status: {status} is another file of this soak"))),
        false => Ok(()),
    }
}
