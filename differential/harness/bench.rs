//! The plain bench (SPECIFICATION 10.2): what opening and each run call must answer. It follows the steps of 9.4, one sample and one
//! draw at a time and keeps whole replies; it knows nothing of working memory. A reply's own samples and its start are the
//! reference's.

use crate::judge;
use crate::rules::{self, Refusal, refusal, refused_draw};
use crate::tape::*;
use reference::simulation::distributions::MessageDistributions;
use reference::simulation::{MessageConfig, open};

const HELD_BACK: i128 = HERE.held_back as i128;
const LONGEST_REPLY: i128 = HERE.longest_reply as i128;

/// The lengths of the memory lent to opening and to each call.
#[derive(Debug, Clone, Copy)]
pub struct Lengths {
    pub memory: usize,
    pub mode_s: usize,
    pub mode_ac: usize,
}

pub const RIGHT_LENGTHS: Lengths = Lengths {
    memory: HERE.working_memory,
    mode_s: HERE.prototype,
    mode_ac: HERE.prototype,
};

impl Lengths {
    fn wrong(&self, n: Numbers) -> bool {
        self.memory != n.working_memory || self.mode_s != n.prototype || self.mode_ac != n.prototype
    }
}

/// What is lent to a run call: room for output in f32, for records in bytes.
#[derive(Debug, Clone)]
pub struct Call {
    pub lengths: Lengths,
    pub draws: Vec<u8>,
    pub noise: Vec<f32>,
    pub output: usize,
    pub records: usize,
}

#[derive(Debug, Clone, Copy, PartialEq, Eq)]
pub enum Stop {
    Done,
    OutputFull,
    WantsNoise,
    WantsDraws,
    RecordsFull,
}

#[derive(Debug, Clone, Copy, PartialEq, Eq)]
pub struct Counts {
    pub stop: Stop,
    pub taken: usize,
    pub samples: usize,
    pub noise: usize,
    pub records: usize,
    /// Reply samples added: a reply's whole count, when its draw is taken.
    pub added: u128,
}

/// An unrefused call's counts, and what it wrote.
#[derive(Debug, Clone)]
pub struct Ran {
    pub counts: Counts,
    pub output: Vec<f32>,
    pub records: Vec<u8>,
}

struct Reply {
    start: u64,
    samples: Vec<(f32, f32)>,
}

pub struct Bench {
    settings: Settings,
    taps: Vec<f32>,
    distributions: MessageDistributions,
    total: u64,
    time: f64,
    ended: bool,
    written: u64,
    /// The latest time of a lent draw by whose start a sample was written.
    latest: Option<f64>,
    replies: Vec<Reply>,
}

impl Bench {
    /// Opens a run on settings of any length.
    pub fn open(settings: &[u8], mode_s: &[f32], mode_ac: &[f32], lent: Lengths) -> Result<Bench, Refusal> {
        if settings.len() != SETTINGS_BYTES {
            return Err(refusal(9));
        }
        let s = Settings::from_bytes(settings);
        rules::samples_per_pulse(&s)?;
        if lent.wrong(s.numbers()) {
            return Err(refusal(9));
        }
        rules::settings(&s)?;
        rules::taps(&s, mode_s, mode_ac)?;
        assert_eq!(s.samples_per_pulse, SPP, "a run that the reference of this program does not make");
        let taps = [mode_s, mode_ac].concat();
        let [a, b] = judge::prototypes(&taps, s.trigger_level);
        rules::prototypes([&a, &b], s.trigger_level)?;
        Ok(Bench {
            settings: s,
            taps,
            distributions: judge::distributions(&s).expect("the reference takes the distributions"),
            total: u64::try_from(s.samples()).unwrap(),
            time: 0.0,
            ended: false,
            written: 0,
            latest: None,
            replies: Vec::new(),
        })
    }

    pub fn trigger_level(&self) -> f32 {
        self.settings.trigger_level
    }

    pub fn done(&self) -> bool {
        self.ended && self.written == self.total
    }

    /// The message of the next draw, at its time.
    fn config(&self, d: &Draw) -> MessageConfig {
        judge::config(d, self.time + d.gap, self.distributions)
    }

    fn check(&self, call: &Call) -> Result<Vec<Draw>, Refusal> {
        if call.lengths.wrong(HERE)
            || call.output == 0
            || call.output % 2 != 0
            || call.draws.len() % DRAW_BYTES != 0
        {
            return Err(refusal(9));
        }
        let draws: Vec<Draw> = call.draws.chunks(DRAW_BYTES).map(draw_from_bytes).collect();
        if let (Some(d), Some(latest)) = (draws.first(), self.latest) {
            if self.time + d.gap < latest {
                return Err(refused_draw(0, 0));
            }
        }
        rules::draws(&self.settings, &draws)?;
        rules::noise(&call.noise)?;
        Ok(draws)
    }

    pub fn call(&mut self, call: &Call) -> Result<Ran, Refusal> {
        let draws = self.check(call)?;
        lent::lend_taps(&self.taps, self.settings.trigger_level);
        let mut ran = Ran {
            counts: Counts {
                stop: Stop::Done,
                taken: 0,
                samples: 0,
                noise: 0,
                records: 0,
                added: 0,
            },
            output: Vec::new(),
            records: Vec::new(),
        };
        loop {
            if let Some(stop) = self.step(call, &draws, &mut ran) {
                ran.counts.stop = stop;
                return Ok(ran);
            }
        }
    }

    /// One pass over steps 1 to 5 (SPECIFICATION 9.4): the first that does something, or the stop.
    fn step(&mut self, call: &Call, draws: &[Draw], ran: &mut Ran) -> Option<Stop> {
        if self.done() {
            return Some(Stop::Done);
        }
        let next = draws.get(ran.counts.taken).map(|d| (d, self.config(d)));
        let start = next
            .as_ref()
            .map(|(_, m)| i128::from(open::first_sample_index(m)));
        let total = i128::from(self.total);
        let ends = |s: i128| s >= 0 && s + LONGEST_REPLY >= total;
        let due = self.ended || start.is_some_and(|s| !ends(s) && s - HELD_BACK > i128::from(self.written));
        if due {
            return self.sample(call, next.map(|(_, m)| m.timestamp_samples), ran);
        }
        let (Some((draw, config)), Some(start)) = (next, start) else {
            return Some(Stop::WantsDraws);
        };
        if start >= 0 && !ends(start) {
            if call.records - ran.records.len() < RECORD_BYTES {
                return Some(Stop::RecordsFull);
            }
            self.add(draw, &config, ran);
        }
        self.ended = ends(start);
        self.time = config.timestamp_samples;
        ran.counts.taken += 1;
        None
    }

    /// A sample is due: step 2.
    fn sample(&mut self, call: &Call, time: Option<f64>, ran: &mut Ran) -> Option<Stop> {
        if ran.output.len() == call.output {
            return Some(Stop::OutputFull);
        }
        let Some(&[re, im]) = call.noise[ran.counts.noise..].first_chunk() else {
            return Some(Stop::WantsNoise);
        };
        let (a, b) = self.value(self.written);
        ran.output.extend([a + re / 1024.0, b + im / 1024.0]);
        ran.counts.noise += 2;
        ran.counts.samples += 1;
        self.written += 1;
        if !self.ended {
            let time = time.unwrap();
            self.latest = Some(self.latest.map_or(time, |l| l.max(time)));
        }
        None
    }

    /// What the replies add to sample n, in tape order.
    fn value(&mut self, n: u64) -> (f32, f32) {
        self.replies.retain(|r| n < r.start + r.samples.len() as u64);
        let mut sum = (0.0, 0.0);
        for r in self.replies.iter().filter(|r| r.start <= n) {
            let (a, b) = r.samples[(n - r.start) as usize];
            sum = (sum.0 + a, sum.1 + b);
        }
        sum
    }

    /// Adds and records a reply: step 5.
    fn add(&mut self, draw: &Draw, config: &MessageConfig, ran: &mut Ran) {
        let start = open::first_sample_index(config) as u64;
        assert!(
            start >= self.written,
            "a reply starts before the samples written: the hold-back is broken"
        );
        lent::lend(std::slice::from_ref(draw), &[]);
        lent::gap();
        let samples: Vec<(f32, f32)> = open::samples(config).iter().map(|z| (z.re, z.im)).collect();
        assert!(samples.len() as i128 <= LONGEST_REPLY);
        ran.records.extend(judge::record(config));
        ran.counts.records += 1;
        ran.counts.added += samples.len() as u128;
        self.replies.push(Reply { start, samples });
    }
}
