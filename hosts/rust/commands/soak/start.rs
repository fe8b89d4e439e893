//! How a soak begins, or goes on from a checkpoint: everything is looked at before anything is touched.
use super::checkpoint::{self, Checkpoint, FeedAt, Found, Store};
use super::config::{Config, Feed, Target};
use super::file::FileWriter;
use super::keeper::Keeper;
use super::kept;
use super::live::Live;
use super::progress::{Clock, seconds};
use super::running::{Outlet, Soak};
use super::say::say;
use super::source::{Source, opened};
use crate::draws::Random;
use crate::more1090_generator::{Rack, Run};
use crate::shell::{Failure, refused};
use std::fs::{self, File, TryLockError};
use std::path::{Path, PathBuf};
use std::thread::sleep;
use std::time::{Duration, Instant};

/// The lock of a checkpoint's name, for as long as the file is held.
pub fn lock(newest: &Path) -> Result<File, Failure> {
    let name = &checkpoint::names(newest)[3];
    let failed = |e| Failure::File(name.display().to_string(), e);
    let file = File::options().create(true).write(true).truncate(false).open(name).map_err(failed)?;
    match file.try_lock() {
        Ok(()) => Ok(file),
        Err(TryLockError::WouldBlock) => Err(Failure::Refused(format!("another soak has the checkpoint {}", newest.display()))),
        Err(TryLockError::Error(e)) => Err(failed(e)),
    }
}

fn length(name: &Path) -> Result<Option<u64>, Failure> {
    match fs::metadata(name) {
        Ok(m) if m.is_file() => Ok(Some(m.len())),
        Ok(_) => Err(Failure::Refused(format!("{} is no regular file", name.display()))),
        Err(e) if e.kind() == std::io::ErrorKind::NotFound => Ok(None),
        Err(e) => Err(Failure::File(name.display().to_string(), e)),
    }
}

/// The files of a soak: the records, and those of feeds with their number.
fn files(config: &Config) -> impl Iterator<Item = (Option<usize>, &PathBuf)> {
    let feeds = config.feeds.iter().enumerate().filter_map(|(k, f)| match &f.target {
        Target::File(name) => Some((Some(k), name)),
        _ => None,
    });
    config.records.iter().map(|name| (None, name)).chain(feeds)
}

/// The length that a file had at a checkpoint.
fn length_at(c: &Checkpoint, feed: Option<usize>) -> u64 {
    feed.map_or(c.records, |k| c.feeds[k].length)
}

/// Whether a checkpoint can be gone on from: its run can, and its files are as long as it says or longer.
fn usable(config: &Config, c: &Checkpoint) -> Result<(), String> {
    if c.feeds.len() != config.feeds.len() {
        return Err("it has another number of feeds".into());
    }
    let (run, _) = kept::restore(&c.run)?;
    if run.state.written != c.samples {
        return Err("its run has another number of samples".into());
    }
    let stopped = |feed: Option<usize>| feed.is_some_and(|k| c.feeds[k].stopped);
    for (feed, name) in files(config).filter(|(feed, _)| !stopped(*feed)) {
        let (there, wanted) = (length(name).map_err(|_| format!("{} is no regular file", name.display()))?, length_at(c, feed));
        match there {
            Some(there) if there < wanted => return Err(format!("{} has {there} bytes of {wanted}", name.display())),
            None if wanted > 0 => return Err(format!("{} is not there", name.display())),
            _ => {}
        }
    }
    Ok(())
}

fn found(config: &Config) -> Result<Found, Failure> {
    let found = checkpoint::find(&config.checkpoint, &config.text, |c| usable(config, c))?;
    if let Found::Nothing = found {
        for (_, name) in files(config) {
            if length(name)?.is_some_and(|length| length > 0) {
                let why = "there is no checkpoint, so the soak would begin anew; move it away, or the checkpoint back";
                return Err(Failure::Refused(format!("{} is not empty: {why}", name.display())));
            }
        }
    }
    Ok(found)
}

/// Where a soak goes on, in words.
fn from(config: &Config, c: &Checkpoint, name: &Path, fault: &Option<String>) -> String {
    let mut text = match fault {
        Some(fault) => format!("soak: {fault}; the checkpoint before it is taken\n"),
        None => String::new(),
    };
    let at = seconds(c.samples, config.samples_per_pulse.sample_rate());
    let what = if c.done { "the run is done," } else { "goes on" };
    text += &format!("soak: {what} at sample {}, {at} s, from {}, number {}", c.samples, name.display(), c.number);
    for (feed, name) in files(config) {
        let (there, wanted) = (length(name).ok().flatten().unwrap_or(0), length_at(c, feed));
        if there > wanted && !c.done && !feed.is_some_and(|k| c.feeds[k].stopped) {
            text += &format!("; {} cut from {there} to {wanted} bytes", name.display());
        }
    }
    text
}

/// What would be gone on from.
pub fn look(config: &Config) -> Result<String, Failure> {
    Ok(match found(config)? {
        Found::Nothing => String::from("soak: begins at sample 0: there is no checkpoint\n"),
        Found::Sound(c, name, _, fault) => from(config, &c, &name, &fault) + "\n",
    })
}

/// Opens all that a soak needs, or answers none where its run is done.
pub fn start(config: &Config, realtime: bool) -> Result<Option<Soak<'_>>, Failure> {
    let (c, sound) = match found(config)? {
        Found::Nothing => (None, false),
        Found::Sound(c, name, newest, fault) => {
            say(from(config, &c, &name, &fault));
            if c.done {
                return Ok(None);
            }
            (Some(c), newest)
        }
    };
    let (mut source, rack) = match &c {
        Some(c) => restored(config, c)?,
        None => begun(config)?,
    };
    let begins = c.is_none();
    let c = c.unwrap_or_default();
    (source.draws, source.replies, source.added) = (c.draws.clone(), c.replies, c.added);
    let mut feeds = outlets(config, &c, realtime)?;
    let records = cut(config, &c, &mut feeds)?;
    let mut soak = Soak {
        config,
        source,
        rack,
        pool: Default::default(),
        records_length: c.records,
        withheld: c.withheld,
        feeds,
        records,
        number: c.number,
        keeper: Keeper::new(Store::new(&config.checkpoint, sound), (!begins).then_some((c.number, c.samples))),
        clock: Clock::new(realtime, c.samples, config.samples_per_pulse.sample_rate(), Duration::from_nanos(c.latest)),
    };
    if begins {
        say("soak: begins at sample 0: there is no checkpoint");
        soak.first_checkpoint()?;
    }
    wait_for_readers(config, &soak.feeds);
    soak.clock.begin();
    Ok(Some(soak))
}

fn begun(config: &Config) -> Result<(Source, Rack), Failure> {
    let run = opened(&config.settings).map_err(|(number, value)| refused(number, value, 0))?;
    let delays: Vec<u64> = config.feeds.iter().map(|f| f.delay).collect();
    let gains: Vec<f32> = config.feeds.iter().map(|f| f.gain).collect();
    let rack = Rack::open(&delays, &gains).map_err(|number| refused(number, 0, 0))?;
    Ok((Source::new(config, run), rack))
}

fn restored(config: &Config, c: &Checkpoint) -> Result<(Source, Rack), Failure> {
    let (run, rack): (Run, Rack) = kept::restore(&c.run).map_err(Failure::Refused)?;
    let mut source = Source::new(config, run);
    (source.drawn, source.noisy) = (Random(c.drawn), Random(c.noisy));
    Ok((source, rack))
}

/// A file that is written behind its first bytes.
fn written(name: &Path, length: u64) -> Result<FileWriter, Failure> {
    FileWriter::open(name, length).map_err(|e| Failure::File(name.display().to_string(), e))
}

fn at(c: &Checkpoint, feed: usize) -> FeedAt {
    c.feeds.get(feed).cloned().unwrap_or_default()
}

/// The feeds that are read. Opening them touches nothing; a file is stopped until `cut` opens it.
fn outlets(config: &Config, c: &Checkpoint, realtime: bool) -> Result<Vec<Outlet>, Failure> {
    let patience = config.patience.unwrap_or(if realtime { Duration::ZERO } else { Duration::from_secs(2) });
    let outlet = |(k, feed): (usize, &Feed)| {
        let FeedAt { length, lost, drops, .. } = at(c, k);
        if feed.is_file() {
            return Ok(Outlet::Stopped { length, lost });
        }
        let live = Live::open(k, &feed.target, (c.samples, lost, drops), config.buffer, patience);
        live.map(Outlet::Live).map_err(|e| Failure::File(feed.name.clone(), e))
    };
    config.feeds.iter().enumerate().map(outlet).collect()
}

/// Opens the files and cuts them: the records first, so that they never have a reply whose samples are cut off.
fn cut(config: &Config, c: &Checkpoint, outlets: &mut [Outlet]) -> Result<Option<FileWriter>, Failure> {
    let records = config.records.as_ref().map(|name| written(name, c.records)).transpose()?;
    for (k, feed) in config.feeds.iter().enumerate() {
        if let (Target::File(name), false) = (&feed.target, at(c, k).stopped) {
            outlets[k] = Outlet::File(written(name, at(c, k).length)?);
        }
    }
    checkpoint::sync_names(files(config).map(|(_, name)| name.as_path()))?;
    Ok(records)
}

/// Waits for a reader of each feed that is read, as long as the file says.
fn wait_for_readers(config: &Config, feeds: &[Outlet]) {
    let began = Instant::now();
    let waiting = |f: &Outlet| matches!(f, Outlet::Live(live) if !live.status().attached);
    while began.elapsed() < config.wait && feeds.iter().any(waiting) && !crate::signals::end_asked() {
        sleep(Duration::from_millis(10));
    }
}
