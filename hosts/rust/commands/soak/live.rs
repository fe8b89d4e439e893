//! Feeds that are read as they are written: named pipes, commands and TCP connections. Each has a thread and a bounded buffer. A
//! reader gets a part of the feed without a gap; one that is too slow is dropped, and its samples are counted as lost until a
//! reader attaches again, at the run's current sample.
use super::config::Target;
use super::room::{Room, SAMPLE_LEN};
use super::system;
use crate::signals;
use std::collections::VecDeque;
use std::fs::{File, OpenOptions};
use std::io::{Error, ErrorKind, Write};
use std::net::{Shutdown, TcpListener, TcpStream};
use std::os::fd::AsRawFd;
use std::os::unix::fs::{FileTypeExt, OpenOptionsExt};
use std::os::unix::process::CommandExt;
use std::path::{Path, PathBuf};
use std::process::{Child, Command, Stdio};
use std::sync::{Arc, Condvar, Mutex, MutexGuard};
use std::thread::{JoinHandle, sleep, spawn};
use std::time::{Duration, Instant};

/// How often a thread looks whether there is a reader, or whether it is to end.
const LOOK: Duration = Duration::from_millis(50);
/// How long a named pipe is left alone once all in it is read, so that its reader sees the end; and a command that ended first.
const PAUSE: Duration = Duration::from_secs(1);
/// How long a command may take to end once its standard input has.
const COMMAND_ENDS: Duration = Duration::from_secs(5);
/// At the end of the run: how long a reader may take nothing of what still waits for it.
const LAST_PATIENCE: Duration = Duration::from_secs(1);

/// What happened to a feed, for a line of its own.
#[derive(Clone, Debug, PartialEq)]
pub enum Event {
    /// A reader attached, at this sample.
    Attached(u64),
    /// The reader was too slow, at this sample.
    Dropped(u64),
    /// The reader has gone, at this sample.
    Gone(u64),
    /// No reader can come, and why.
    Closed(String),
}

#[derive(Default)]
struct State {
    blocks: VecDeque<Arc<Room>>,
    /// Samples that wait.
    waiting: u64,
    /// The run's samples so far.
    position: u64,
    attached: bool,
    /// Where the reader attached.
    since: u64,
    lost: u64,
    drops: u64,
    /// The reader is to be dropped; its thread has not done so yet.
    dropping: bool,
    ending: bool,
    /// When the reader took something last.
    taken: Option<Instant>,
    events: Vec<Event>,
}

impl State {
    /// Whether the buffer of an attached reader has no room for these samples.
    fn is_full_for(&self, samples: u64, most: u64) -> bool {
        self.attached && !self.dropping && self.waiting != 0 && self.waiting + samples > most
    }

    /// What waits is lost; the thread drops the reader.
    fn drop_reader(&mut self) {
        self.dropping = true;
        self.drops += 1;
        self.lost += self.waiting;
        (self.waiting, self.blocks) = (0, VecDeque::new());
    }

    /// Whether a reader that takes nothing now is not waited for any longer.
    fn gives_up(&self) -> bool {
        let idle = self.taken.map_or(Duration::ZERO, |taken| taken.elapsed());
        self.dropping || (self.ending && idle >= LAST_PATIENCE)
    }
}

struct Shared {
    feed: usize,
    state: Mutex<State>,
    changed: Condvar,
}

impl Shared {
    fn lock(&self) -> MutexGuard<'_, State> {
        self.state.lock().unwrap()
    }
}

/// The state of a feed, as it is reported.
pub struct Status {
    pub attached: bool,
    pub since: u64,
    pub lost: u64,
    pub drops: u64,
}

pub struct Live {
    shared: Arc<Shared>,
    thread: Option<JoinHandle<()>>,
    most_waiting: u64,
    patience: Duration,
}

impl Live {
    /// A feed that goes on from a sample, with its counts. A listener is bound, and a pipe is looked at, before it is written to.
    pub fn open(feed: usize, target: &Target, at: (u64, u64, u64), buffer: usize, patience: Duration) -> Result<Live, Error> {
        let mut way = Way::open(target)?;
        let (position, lost, drops) = at;
        let state = State { position, lost, drops, ..State::default() };
        let shared = Arc::new(Shared { feed, state: Mutex::new(state), changed: Condvar::new() });
        // A reader that is there already gets the first sample.
        let first = way.reader()?;
        if first.is_some() {
            attach(&shared);
        }
        let its = shared.clone();
        let thread = Some(spawn(move || serve(&mut way, first, &its)));
        Ok(Live { shared, thread, most_waiting: (buffer / SAMPLE_LEN) as u64, patience })
    }

    /// Hands over a block, or counts it as lost. A full buffer is waited for as long as the reader takes something within the
    /// patience, and is dropped with its reader then; where the soak is to end it is not waited for.
    pub fn put(&self, room: &Arc<Room>) {
        let samples = room.samples();
        let mut state = self.shared.lock();
        while state.is_full_for(samples, self.most_waiting) && !signals::end_asked() {
            let idle = state.taken.map_or(Duration::ZERO, |taken| taken.elapsed());
            if idle >= self.patience {
                state.drop_reader();
            } else {
                state = self.shared.changed.wait_timeout(state, LOOK.min(self.patience - idle)).unwrap().0;
            }
        }
        state.position += samples;
        if state.attached && !state.dropping {
            state.waiting += samples;
            state.blocks.push_back(room.clone());
        } else {
            state.lost += samples;
        }
        self.shared.changed.notify_all();
    }

    pub fn status(&self) -> Status {
        let state = self.shared.lock();
        Status { attached: state.attached && !state.dropping, since: state.since, lost: state.lost, drops: state.drops }
    }

    pub fn events(&self) -> Vec<Event> {
        std::mem::take(&mut self.shared.lock().events)
    }

    /// No more is handed over: the reader gets what waits, if it takes it.
    pub fn finish(&self) {
        self.shared.lock().ending = true;
        self.shared.changed.notify_all();
    }

    /// Waits for the end of the thread.
    pub fn join(&mut self) {
        self.finish();
        if let Some(thread) = self.thread.take() {
            let _ = thread.join();
        }
    }
}

impl Drop for Live {
    fn drop(&mut self) {
        self.join();
    }
}

/// How readers come.
enum Way {
    /// A named pipe, and what is left of the reader before.
    Pipe(PathBuf, Before),
    /// A command, the folder that it runs in, and when it may start.
    Command(String, PathBuf, Starts),
    Listener(TcpListener),
}

/// When a command may start again: later and later where it ends soon, so that one that fails at once is no burden for years.
struct Starts {
    last: Instant,
    pause: Duration,
    next: Instant,
}

/// The longest pause before a command is started again; one that has run for longer has not ended soon.
const LONGEST_PAUSE: Duration = Duration::from_secs(60);

impl Starts {
    fn at_once() -> Starts {
        Starts { last: Instant::now(), pause: PAUSE, next: Instant::now() }
    }

    fn ended(&mut self) {
        if self.last.elapsed() > LONGEST_PAUSE {
            self.pause = PAUSE;
        }
        self.next = Instant::now() + self.pause;
        self.pause = LONGEST_PAUSE.min(2 * self.pause);
    }
}

/// What is left of a named pipe's reader that was dropped.
enum Before {
    Nothing,
    /// It may have to read what is still in the pipe.
    Bytes,
    /// Nothing is in the pipe since then; soon it has seen the end.
    Empty(Instant),
}

/// A reader.
enum Reader {
    Pipe(File),
    Command(Child),
    Connection(TcpStream),
}

impl Way {
    fn open(target: &Target) -> Result<Way, Error> {
        match target {
            Target::Command(words, folder) => Ok(Way::Command(words.clone(), folder.clone(), Starts::at_once())),
            Target::Listen(address) => {
                let listener = TcpListener::bind(address)?;
                listener.set_nonblocking(true)?;
                Ok(Way::Listener(listener))
            }
            Target::Pipe(name) | Target::File(name) => match std::fs::metadata(name)?.file_type().is_fifo() {
                true => Ok(Way::Pipe(name.clone(), Before::Nothing)),
                false => Err(Error::new(ErrorKind::InvalidInput, "it is no named pipe (mkfifo makes one)")),
            },
        }
    }

    /// The next reader, if there is one.
    fn reader(&mut self) -> Result<Option<Reader>, Error> {
        match self {
            Way::Pipe(name, before) => {
                let pipe = pipe_reader(name, before)?;
                pipe.iter().for_each(system::enlarge);
                Ok(pipe.map(Reader::Pipe))
            }
            Way::Command(_, _, starts) if Instant::now() < starts.next => Ok(None),
            Way::Command(words, folder, starts) => {
                starts.last = Instant::now();
                let mut shell = Command::new("/bin/sh");
                // A group of its own: what a terminal sends to the soak is not for it.
                let child = shell.arg("-c").arg(words).current_dir(folder).stdin(Stdio::piped()).process_group(0).spawn()?;
                child.stdin.as_ref().map_or(Ok(()), system::do_not_wait)?;
                child.stdin.iter().for_each(system::enlarge);
                Ok(Some(Reader::Command(child)))
            }
            Way::Listener(listener) => match listener.accept() {
                Ok((connection, _)) => {
                    connection.set_nonblocking(true)?;
                    Ok(Some(Reader::Connection(connection)))
                }
                Err(e) if system::try_again(&e) => Ok(None),
                Err(e) => Err(e),
            },
        }
    }

    /// Ends a reader.
    fn end(&mut self, reader: Reader, why: Ended) {
        match (self, reader) {
            (Way::Pipe(_, before), Reader::Pipe(_)) if why == Ended::Dropped => *before = Before::Bytes,
            (Way::Command(_, _, starts), Reader::Command(child)) => {
                end_command(child, why);
                starts.ended();
            }
            (_, Reader::Connection(connection)) => drop(connection.shutdown(Shutdown::Both)),
            _ => {}
        }
    }
}

/// Opens a named pipe that somebody reads. After a reader that was dropped it is left alone until all in it is read, and for a
/// while then, so that this reader sees the end of its stream and not another part of the feed.
fn pipe_reader(name: &Path, before: &mut Before) -> Result<Option<File>, Error> {
    let open = |options: &mut OpenOptions| options.custom_flags(system::NONBLOCKING).open(name);
    *before = match before {
        Before::Empty(since) if since.elapsed() >= PAUSE => Before::Nothing,
        Before::Nothing => Before::Nothing,
        // Opened to look at, and not to read: one that waits for a writer goes on to wait.
        Before::Bytes if system::unread(&open(OpenOptions::new().read(true))?)? > 0 => Before::Bytes,
        Before::Bytes => Before::Empty(Instant::now()),
        Before::Empty(since) => Before::Empty(*since),
    };
    if !matches!(before, Before::Nothing) {
        return Ok(None);
    }
    match open(OpenOptions::new().write(true)) {
        Err(e) if e.raw_os_error() == Some(system::NO_READER) => Ok(None),
        pipe => pipe.map(Some),
    }
}

/// Why a reader gets no more.
#[derive(Clone, Copy, PartialEq)]
enum Ended {
    Dropped,
    Gone,
    /// The run has ended.
    Run,
}

/// Closes a command's standard input and waits for its end. Where the run goes on, a command that does not end is ended, with
/// what it has started; one that was dropped gets no time.
fn end_command(mut child: Child, why: Ended) {
    drop(child.stdin.take());
    let until = Instant::now() + if why == Ended::Dropped { LOOK } else { COMMAND_ENDS };
    while Instant::now() < until {
        if matches!(child.try_wait(), Ok(Some(_))) {
            return;
        }
        sleep(LOOK);
    }
    if why != Ended::Run {
        system::end_group(child.id());
        let _ = child.wait();
    }
}

impl Reader {
    /// Writes some bytes, or none where it takes none now.
    fn write(&mut self, bytes: &[u8]) -> Result<usize, Error> {
        let written = match self {
            Reader::Pipe(pipe) => pipe.write(bytes),
            Reader::Command(child) => child.stdin.as_mut().map_or(Ok(0), |stdin| stdin.write(bytes)),
            Reader::Connection(connection) => connection.write(bytes),
        };
        match written {
            Ok(0) => Err(Error::from(ErrorKind::WriteZero)),
            Err(e) if system::try_again(&e) => Ok(0),
            written => written,
        }
    }

    /// Waits until it takes bytes, but not long.
    fn wait(&self) {
        let file = match self {
            Reader::Pipe(pipe) => Some(pipe.as_raw_fd()),
            Reader::Command(child) => child.stdin.as_ref().map(AsRawFd::as_raw_fd),
            Reader::Connection(connection) => Some(connection.as_raw_fd()),
        };
        if let Some(file) = file {
            system::wait_until_writable(file, LOOK);
        }
    }
}

/// The thread of a feed: reader after reader, until the run ends.
fn serve(way: &mut Way, mut next: Option<Reader>, shared: &Shared) {
    let mut fault = String::new();
    loop {
        if let Some(mut reader) = next.take() {
            let why = feed(&mut reader, shared);
            detach(shared, why);
            way.end(reader, why);
        }
        if shared.lock().ending {
            return;
        }
        match way.reader() {
            Ok(Some(reader)) => {
                attach(shared);
                next = Some(reader);
            }
            Ok(None) => sleep(LOOK),
            Err(e) => {
                if e.to_string() != fault {
                    fault = e.to_string();
                    shared.lock().events.push(Event::Closed(fault.clone()));
                }
                sleep(PAUSE);
            }
        }
    }
}

fn attach(shared: &Shared) {
    let mut state = shared.lock();
    (state.attached, state.dropping) = (true, false);
    (state.since, state.taken) = (state.position, Some(Instant::now()));
    let event = Event::Attached(state.position);
    state.events.push(event);
}

/// What waits is lost.
fn detach(shared: &Shared, why: Ended) {
    let mut state = shared.lock();
    state.lost += state.waiting;
    (state.waiting, state.blocks) = (0, VecDeque::new());
    let at = state.position;
    match why {
        Ended::Dropped => state.events.push(Event::Dropped(at)),
        Ended::Gone => state.events.push(Event::Gone(at)),
        Ended::Run => {}
    }
    (state.attached, state.dropping) = (false, false);
    shared.changed.notify_all();
}

/// Feeds a reader until it is gone or dropped, or the run ends.
fn feed(reader: &mut Reader, shared: &Shared) -> Ended {
    loop {
        let mut state = shared.lock();
        while state.blocks.is_empty() && !state.dropping && !state.ending {
            state = shared.changed.wait_timeout(state, LOOK).unwrap().0;
        }
        if state.dropping {
            return Ended::Dropped;
        }
        let Some(block) = state.blocks.pop_front() else { return Ended::Run };
        drop(state);
        let (taken, why) = put(reader, block.bytes(shared.feed), shared);
        let mut state = shared.lock();
        if state.dropping {
            // The drop has counted the whole block as lost.
            state.lost -= taken;
        } else {
            state.waiting -= block.samples();
            state.lost += block.samples() - taken;
        }
        shared.changed.notify_all();
        if let Some(why) = why {
            return if state.dropping { Ended::Dropped } else { why };
        }
    }
}

/// Writes a block; answers how many samples the reader took whole, and why it gets no more, where it was not all.
fn put(reader: &mut Reader, bytes: &[u8], shared: &Shared) -> (u64, Option<Ended>) {
    let mut written = 0;
    let mut ended = None;
    while written < bytes.len() && ended.is_none() {
        match reader.write(&bytes[written..]) {
            Ok(0) => {
                reader.wait();
                ended = shared.lock().gives_up().then_some(Ended::Dropped);
            }
            Ok(n) => {
                written += n;
                shared.lock().taken = Some(Instant::now());
                shared.changed.notify_all();
            }
            Err(_) => ended = Some(Ended::Gone),
        }
    }
    ((written / SAMPLE_LEN) as u64, ended)
}
