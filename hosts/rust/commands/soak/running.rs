//! The soak itself: block after block to every feed, records behind their samples, checkpoints now and then.
use super::checkpoint::{Checkpoint, FeedAt};
use super::config::{Config, Ends};
use super::file::FileWriter;
use super::keeper::Keeper;
use super::kept;
use super::live::{Event, Live};
use super::progress::{Clock, FeedStatus, Progress, Status, seconds};
use super::room::{Pool, Room, SAMPLE_LEN};
use super::say::say;
use super::source::Source;
use crate::more1090_generator::{RECORD_LEN, Rack};
use crate::shell::{Failure, refused};
use crate::signals;
use std::sync::Arc;
use std::time::Instant;

/// Where the samples of a feed go.
pub enum Outlet {
    File(FileWriter),
    Live(Live),
    /// A file that failed: what it has for certain, and the samples that it lacks.
    Stopped { length: u64, lost: u64 },
}

pub struct Soak<'a> {
    pub config: &'a Config,
    pub source: Source,
    pub rack: Rack,
    pub pool: Arc<Pool>,
    /// The bytes of records that were handed over.
    pub records_length: u64,
    /// Records of replies of which some feed has no sample yet.
    pub withheld: Vec<u8>,
    pub feeds: Vec<Outlet>,
    pub records: Option<FileWriter>,
    /// The number of the next checkpoint, or of the last one.
    pub number: u64,
    pub keeper: Keeper,
    pub clock: Clock,
}

/// The lines about readers that may come at once; one more may each minute. The lines of progress have what is left out.
const MOST_EVENTS: u64 = 64;
const EVENT_SECONDS: u64 = 60;

/// How many lines about readers are left.
struct Budget {
    lines: u64,
    since: Instant,
}

impl Budget {
    fn take(&mut self) -> bool {
        let more = self.since.elapsed().as_secs() / EVENT_SECONDS;
        if more > 0 {
            (self.lines, self.since) = ((self.lines + more).min(MOST_EVENTS), Instant::now());
        }
        let taken = self.lines > 0;
        self.lines -= u64::from(taken);
        taken
    }
}

/// The first sample of a record (SPECIFICATION 4.5).
fn first_sample(record: &[u8]) -> u64 {
    u64::from_le_bytes(record[40..48].try_into().unwrap())
}

impl Soak<'_> {
    pub fn go(mut self, mut progress: Progress) -> Result<(), Failure> {
        let ended = self.run(&mut progress);
        if ended.is_err() {
            self.keeper.finish();
            match self.keeper.last() {
                Some((number, samples)) => say(format!("soak: ends; checkpoint {number}, at sample {samples}, stays to go on from")),
                None => say("soak: ends, and no checkpoint is written"),
            }
        }
        ended
    }

    fn run(&mut self, progress: &mut Progress) -> Result<(), Failure> {
        let mut budget = Budget { lines: MOST_EVENTS, since: Instant::now() };
        let mut kept = Instant::now();
        progress.report(&self.status());
        while !self.source.done && !signals::end_asked() {
            self.clock.wait(self.source.position());
            self.block()?;
            self.release();
            self.faults()?;
            if kept.elapsed() >= self.config.interval && !self.keeper.busy() {
                kept = Instant::now();
                self.checkpoint(false);
            }
            self.report_events(&mut budget);
            if progress.due() {
                progress.report(&self.status());
            }
        }
        self.finish(progress)
    }

    /// Makes a block and hands it to every feed.
    fn block(&mut self) -> Result<(), Failure> {
        let samples = self.source.block(&mut self.withheld)?;
        if samples.is_empty() {
            return Ok(());
        }
        let (feeds, rack) = (self.feeds.len(), &mut self.rack);
        let filled = Room::filled(&self.pool, feeds, samples.len(), |room| rack.call(samples, room));
        let room = Arc::new(filled.map_err(|number| refused(number, 0, 0))?);
        for (k, feed) in self.feeds.iter_mut().enumerate() {
            match feed {
                Outlet::File(file) => file.put(&room, k),
                Outlet::Live(live) => live.put(&room),
                Outlet::Stopped { lost, .. } => *lost += room.samples(),
            }
        }
        Ok(())
    }

    /// For each feed, the run's samples that it has: a reply that begins before them has a sample there.
    fn reached(&self) -> impl Iterator<Item = u64> {
        let position = self.source.position();
        self.feeds.iter().zip(&self.config.feeds).map(move |(outlet, feed)| {
            let written = match outlet {
                Outlet::File(file) => file.written() / SAMPLE_LEN as u64,
                _ => position,
            };
            written.saturating_sub(feed.delay)
        })
    }

    /// Hands over the records, in order, of which every feed has a sample.
    fn release(&mut self) {
        let reached = self.reached().min().unwrap_or(0);
        self.release_before(reached);
    }

    fn release_before(&mut self, sample: u64) {
        let records = self.withheld.chunks_exact(RECORD_LEN).take_while(|r| first_sample(r) < sample).count();
        if records > 0 {
            let bytes: Vec<u8> = self.withheld.drain(..records * RECORD_LEN).collect();
            if let Some(file) = &self.records {
                self.records_length += bytes.len() as u64;
                file.put_bytes(bytes);
            }
        }
    }

    /// What failed: it ends the run, or a feed's file its feed alone.
    fn faults(&mut self) -> Result<(), Failure> {
        let failed = |file: &FileWriter| file.failure().map(|e| Failure::File(file.name.display().to_string(), e));
        if let Some(failure) = self.records.as_ref().and_then(failed).or_else(|| self.keeper.failure()) {
            return Err(failure);
        }
        let position = self.source.position();
        for (k, feed) in self.feeds.iter_mut().enumerate() {
            let Outlet::File(file) = feed else { continue };
            let Some(failure) = failed(file) else { continue };
            if self.config.file_ends == Ends::Run {
                return Err(failure);
            }
            if let Failure::File(name, e) = failure {
                say(format!("soak: {name}: {e}"));
            }
            let Outlet::File(file) = std::mem::replace(feed, Outlet::Stopped { length: 0, lost: 0 }) else { continue };
            let length = file.given_up();
            say(format!("soak: feed {} ends, with {length} bytes; the others go on", k + 1));
            *feed = Outlet::Stopped { length, lost: position - length / SAMPLE_LEN as u64 };
        }
        match self.feeds.iter().all(|feed| matches!(feed, Outlet::Stopped { .. })) {
            true => Err(Failure::Refused("every feed has ended".into())),
            false => Ok(()),
        }
    }

    fn at(&self, feed: &Outlet) -> FeedAt {
        let length = self.source.position() * SAMPLE_LEN as u64;
        match feed {
            Outlet::File(_) => FeedAt { length, ..FeedAt::default() },
            Outlet::Live(live) => {
                let s = live.status();
                FeedAt { lost: s.lost, drops: s.drops, ..FeedAt::default() }
            }
            Outlet::Stopped { length, lost } => FeedAt { stopped: true, length: *length, lost: *lost, drops: 0 },
        }
    }

    /// Takes down where everything is, to be written once the files are on the disk so far.
    fn checkpoint(&mut self, done: bool) {
        self.number += 1;
        let checkpoint = Checkpoint {
            number: self.number,
            drawn: self.source.drawn.0,
            noisy: self.source.noisy.0,
            samples: self.source.position(),
            replies: self.source.replies,
            added: self.source.added,
            latest: self.clock.latest.as_nanos() as u64,
            done,
            text: self.config.text.clone(),
            draws: self.source.draws.clone(),
            withheld: self.withheld.clone(),
            run: kept::save(&self.source.run, &self.rack),
            records: self.records_length,
            feeds: self.feeds.iter().map(|f| self.at(f)).collect(),
        };
        let files = self.feeds.iter().filter_map(|f| if let Outlet::File(file) = f { Some(file) } else { None });
        let synced = files.chain(&self.records).map(FileWriter::mark).collect();
        self.keeper.put(checkpoint, synced);
    }

    /// The checkpoint of a run that begins, before anything is made.
    pub fn first_checkpoint(&mut self) -> Result<(), Failure> {
        self.checkpoint(false);
        while self.keeper.busy() {
            std::thread::yield_now();
        }
        self.faults()
    }

    /// Readers get what waits for them, files are on the disk, and the last checkpoint is written.
    fn finish(&mut self, progress: &mut Progress) -> Result<(), Failure> {
        let lives = |feeds: &mut [Outlet], f: fn(&mut Live)| {
            for feed in feeds {
                if let Outlet::Live(live) = feed {
                    f(live);
                }
            }
        };
        lives(&mut self.feeds, |live| live.finish());
        lives(&mut self.feeds, Live::join);
        for feed in &self.feeds {
            if let Outlet::File(file) = feed {
                file.mark().on_disk();
            }
        }
        self.faults()?;
        self.release();
        if self.source.done {
            let reached = self.reached().max().unwrap_or(0);
            self.release_before(reached);
        }
        self.checkpoint(self.source.done);
        self.keeper.finish();
        self.faults()?;
        progress.report(&self.status());
        let how = if self.source.done { "done" } else { "ended as asked" };
        let at = seconds(self.source.position(), self.config.samples_per_pulse.sample_rate());
        say(format!("soak: {how} at sample {}, {at} s", self.source.position()));
        Ok(())
    }

    /// What happened to the readers of feeds, as far as lines are left.
    fn report_events(&self, budget: &mut Budget) {
        for (k, feed) in self.feeds.iter().enumerate() {
            let Outlet::Live(live) = feed else { continue };
            for event in live.events() {
                if !budget.take() {
                    continue;
                }
                let what = match event {
                    Event::Attached(at) => format!("has a reader, at sample {at}"),
                    Event::Dropped(at) => format!("is dropped: its reader is too slow, at sample {at}"),
                    Event::Gone(at) => format!("is dropped: its reader has gone, at sample {at}"),
                    Event::Closed(why) => format!("can have no reader: {why}"),
                };
                say(format!("soak: feed {} ({}) {what}", k + 1, self.config.feeds[k].name));
            }
        }
    }

    fn status(&self) -> Status {
        let feed = |(k, feed): (usize, &Outlet)| {
            let name = self.config.feeds[k].name.clone();
            let (state, samples, lost, drops) = match feed {
                Outlet::File(file) => ("file", file.written() / SAMPLE_LEN as u64, 0, 0),
                Outlet::Stopped { length, lost } => ("stopped", length / SAMPLE_LEN as u64, *lost, 0),
                Outlet::Live(live) => {
                    let s = live.status();
                    (if s.attached { "attached" } else { "waiting" }, s.since, s.lost, s.drops)
                }
            };
            FeedStatus { state, samples, lost, drops, name }
        };
        Status {
            samples: self.source.position(),
            total: self.source.run.state.total,
            sample_rate: self.config.samples_per_pulse.sample_rate(),
            replies: self.source.replies,
            added: self.source.added,
            latest: self.clock.latest,
            checkpoint: self.keeper.last(),
            feeds: self.feeds.iter().enumerate().map(feed).collect(),
        }
    }
}
