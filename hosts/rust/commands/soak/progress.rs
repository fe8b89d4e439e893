//! What a soak says of itself while it runs: a line now and then, the status file, and how late it is.
use super::say::say;
use std::fs;
use std::io::Error;
use std::path::{Path, PathBuf};
use std::thread::sleep;
use std::time::{Duration, Instant, SystemTime, UNIX_EPOCH};

/// Keeps to the clock where that is asked for, and to how late a block ever was.
pub struct Clock {
    realtime: bool,
    began: Instant,
    from: u64,
    sample_rate: u64,
    pub latest: Duration,
}

impl Clock {
    pub fn new(realtime: bool, from: u64, sample_rate: u64, latest: Duration) -> Clock {
        Clock { realtime, began: Instant::now(), from, sample_rate, latest }
    }

    /// The first sample is due now.
    pub fn begin(&mut self) {
        self.began = Instant::now();
    }

    /// Waits until a sample is due; where it was due before, takes down how late it is.
    pub fn wait(&mut self, sample: u64) {
        if !self.realtime {
            return;
        }
        let (since, rate) = (sample - self.from, self.sample_rate);
        let part = (since % rate) * 1_000_000_000 / rate;
        let due = Duration::new(since / rate, part as u32);
        if let Some(early) = due.checked_sub(self.began.elapsed()) {
            sleep(early);
        }
        self.latest = self.latest.max(self.began.elapsed().saturating_sub(due));
    }
}

/// The state of the run, as it is reported.
pub struct Status {
    pub samples: u64,
    pub total: u64,
    pub sample_rate: u64,
    pub replies: u64,
    pub added: u128,
    pub latest: Duration,
    pub checkpoint: Option<(u64, u64)>,
    pub feeds: Vec<FeedStatus>,
}

pub struct FeedStatus {
    /// file, attached, waiting or stopped.
    pub state: &'static str,
    /// Samples in a file; the sample at which a reader attached.
    pub samples: u64,
    pub lost: u64,
    pub drops: u64,
    pub name: String,
}

/// Seconds of signal, with six digits after the point.
pub fn seconds(samples: u64, sample_rate: u64) -> String {
    let micros = u128::from(samples) * 1_000_000 / u128::from(sample_rate);
    format!("{}.{:06}", micros / 1_000_000, micros % 1_000_000)
}

impl Status {
    fn line(&self) -> String {
        let mut line = format!(
            "soak: signal {} s, {} of {} samples, {} replies, {} reply samples added, at most {:.6} s late",
            seconds(self.samples, self.sample_rate),
            self.samples,
            self.total,
            self.replies,
            self.added,
            self.latest.as_secs_f64()
        );
        if let Some((number, samples)) = self.checkpoint {
            line += &format!("; checkpoint {number} at {} s", seconds(samples, self.sample_rate));
        }
        for (k, f) in self.feeds.iter().enumerate() {
            line += &format!("; feed {} {}", k + 1, f.state);
            if f.lost + f.drops > 0 {
                line += &format!(", {} samples lost, drops {}", f.lost, f.drops);
            }
        }
        line
    }

    /// The status file's text (docs/SOAK.md).
    fn text(&self) -> String {
        let now = SystemTime::now().duration_since(UNIX_EPOCH).unwrap_or_default().as_secs();
        let mut text = format!(
            "time {now}\nsignal {}\nsamples {}\ntotal {}\nreplies {}\nadditions {}\nlate {:.6}\n",
            seconds(self.samples, self.sample_rate),
            self.samples,
            self.total,
            self.replies,
            self.added,
            self.latest.as_secs_f64()
        );
        if let Some((number, samples)) = self.checkpoint {
            text += &format!("checkpoint {number} {samples}\n");
        }
        for (k, f) in self.feeds.iter().enumerate() {
            text += &format!("feed {} {} {} {} {} {}\n", k + 1, f.state, f.samples, f.lost, f.drops, f.name);
        }
        text
    }
}

/// When the state of the run was reported last, and where to.
pub struct Progress {
    every: Duration,
    last: Instant,
    status: Option<PathBuf>,
    failed: bool,
}

impl Progress {
    pub fn new(every: Duration, status: Option<&str>) -> Progress {
        Progress { every, last: Instant::now(), status: status.map(PathBuf::from), failed: false }
    }

    pub fn due(&self) -> bool {
        self.last.elapsed() >= self.every
    }

    /// A line, and the status file. That it cannot be written ends nothing, and is said once.
    pub fn report(&mut self, status: &Status) {
        self.last = Instant::now();
        say(status.line());
        let Some(name) = &self.status else { return };
        let written = replace(name, &status.text());
        if let (Err(e), false) = (&written, self.failed) {
            say(format!("soak: {}: {e}", name.display()));
        }
        self.failed = written.is_err();
    }
}

/// A file is replaced whole.
fn replace(name: &Path, text: &str) -> Result<(), Error> {
    let mut part = name.as_os_str().to_owned();
    part.push(".part");
    fs::write(&part, text)?;
    fs::rename(&part, name)
}
