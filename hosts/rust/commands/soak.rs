//! `more1090 soak`: a run of random replies for up to sixteen receivers, which goes on after a restart, a crash or a full disk.
mod checkpoint;
mod config;
mod drawn;
mod file;
mod keeper;
mod kept;
mod live;
mod progress;
mod room;
mod running;
mod say;
mod source;
mod start;
mod system;

use crate::shell::{Command, Failure, print, words_and_flags};
use crate::signals;
use progress::Progress;
use std::time::Duration;

pub const COMMAND: Command = Command {
    name: "soak",
    arguments: "[--realtime] [--progress SECONDS] [--status FILE] [--look] CONFIG",
    summary: "a run for up to sixteen receivers that goes on after a restart, a crash or a full disk",
    help: "Makes the run that CONFIG says, and writes it to its feeds: files, named pipes, commands and TCP connections, each with\n\
        its delay and gain, as pairs of little-endian f32 (cf32). Checkpoints are written now and then; started again with the\n\
        same CONFIG, the soak goes on from the newest sound one. It cuts the files to what they had then, so that they end up as\n\
        those of a run that was never ended. Without a checkpoint it begins, and the files must be empty or not there.\n\n\
        CONFIG has a line for each thing; names in it are beside CONFIG, and a line that begins with # is a comment:\n\n\
        duration SECONDS      of signal\n\
        replies N             replies a second of all types; or rates R0 .. R6, one for each type\n\
        seed N                of draws and noise, a whole number below 2^64 (1)\n\
        level DB              of every reply, at 4 samples per pulse; or distance (distance)\n\
        samples-per-pulse N   4, which is 8,000,000 samples a second, or 8, which is 16,000,000 (4)\n\
        trigger-level PART    where on its rise a pulse is timed, 0.1 to 0.9 of its height (0.5)\n\
        carrier, phase, clock constant VALUE; or normal SIGMA MAX (Hz), uniform, uniform MAX (normal 100e3 1e6, uniform,\n\
        \x20                     uniform 50e-6)\n\
        records FILE          66 bytes for each reply, as `more1090 pages` and `more1090 heard` take them; else there are none\n\
        checkpoint FILE       the newest checkpoint; FILE.before is the one before it\n\
        interval SECONDS      between checkpoints (60)\n\
        buffer MIB            for each feed that is no file (16)\n\
        patience SECONDS      for a reader that takes nothing while its buffer is full (2, and 0 with --realtime)\n\
        wait SECONDS          for readers, before the first sample (0)\n\
        full-disk WHAT        what ends where the file of a feed cannot be written: run or feed (run)\n\
        feed DELAY GAIN KIND NAME  up to sixteen: 0 to 4095 samples, 0 to 1, and\n\
        \x20                     file FILE, pipe NAMED-PIPE, command WORDS.., or listen ADDRESS:PORT (loopback)\n\n\
        A reader that goes, or takes nothing for too long, is dropped: it gets no more of that stream, its samples are counted\n\
        as lost, and it may attach again, at the run's current sample. A file is never dropped. TERM and INT finish the call,\n\
        write a checkpoint, and end the soak with status 0.\n\n\
        --realtime            no block of samples before its time\n\
        --progress SECONDS    between two lines on standard error that have the state of the run (60)\n\
        --status FILE         has the same for programs, replaced whole with each line\n\
        --look                only says what would be gone on from, and touches nothing\n",
    run,
};

const EVERY: Duration = Duration::from_secs(60);

fn run(args: &[String]) -> Result<(), Failure> {
    let words = words_and_flags(args, &["--progress", "--status"], &["--realtime", "--look"], 1, 1)?;
    let name = words.rest[0];
    let text = std::fs::read_to_string(name).map_err(|e| Failure::File(name.into(), e))?;
    let config = config::read(name, &text)?;
    let every = match words.option("--progress") {
        Some(text) => config::seconds(text).ok_or_else(|| Failure::Use(format!("--progress: {text} is no number of seconds")))?,
        None => EVERY,
    };
    let status = words.option("--status");
    if let Some(status) = status {
        config::apart(&config, status)?;
    }
    if words.flag("--look") {
        return print(&start::look(&config)?);
    }
    signals::catch_as_asked();
    checkpoint::end_at_step();
    let _lock = start::lock(&config.checkpoint)?;
    let ended = match start::start(&config, words.flag("--realtime")) {
        Ok(Some(soak)) => soak.go(Progress::new(every, status)),
        Ok(None) => Ok(()),
        Err(failure) => Err(failure),
    };
    say::flush();
    ended
}
