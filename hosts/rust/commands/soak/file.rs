//! Files that a soak writes: a thread for each, with a bounded buffer. What was handed over is written in order; a checkpoint
//! waits until what was handed over before it is on the disk, while more is written.
use super::room::{Room, SAMPLE_LEN};
use std::collections::VecDeque;
use std::fs::File;
use std::io::{Error, ErrorKind, Seek, SeekFrom, Write};
use std::path::{Path, PathBuf};
use std::sync::mpsc::{Receiver, Sender, channel};
use std::sync::{Arc, Condvar, Mutex, MutexGuard};
use std::thread::{JoinHandle, spawn};

/// The bytes that wait for a file; where there are as many, the run waits.
const MOST_WAITING: usize = 16 << 20;

enum Item {
    Block(Arc<Room>, usize),
    Bytes(Vec<u8>),
    /// Answered with the bytes of the file once what was handed over before is written, or dropped where it is not.
    Mark(Sender<u64>),
    End,
}

impl Item {
    fn bytes(&self) -> &[u8] {
        match self {
            Item::Block(room, feed) => room.bytes(*feed),
            Item::Bytes(bytes) => bytes,
            Item::Mark(_) | Item::End => &[],
        }
    }
}

#[derive(Default)]
struct State {
    items: VecDeque<Item>,
    waiting: usize,
    /// Bytes written, and those of them that are known to be on the disk.
    written: u64,
    synced: u64,
    failed: Option<Error>,
    /// Its failure is reported.
    reported: bool,
}

#[derive(Default)]
struct Shared {
    state: Mutex<State>,
    changed: Condvar,
}

impl Shared {
    fn lock(&self) -> MutexGuard<'_, State> {
        self.state.lock().unwrap()
    }

    /// The next item; none where the file has failed.
    fn next(&self) -> Option<Item> {
        let mut state = self.lock();
        while state.items.is_empty() && state.failed.is_none() {
            state = self.changed.wait(state).unwrap();
        }
        state.items.pop_front()
    }

    fn fail(&self, e: Error) {
        let mut state = self.lock();
        state.failed.get_or_insert(e);
        state.waiting = 0;
        state.items.clear();
        self.changed.notify_all();
    }
}

/// What was handed over to a file so far.
pub struct Mark {
    reached: Receiver<u64>,
    file: Arc<File>,
    shared: Arc<Shared>,
}

impl Mark {
    /// Waits until it is on the disk; whether it is.
    pub fn on_disk(self) -> bool {
        let Ok(length) = self.reached.recv() else { return false };
        match self.file.sync_all() {
            Ok(()) => {
                let mut state = self.shared.lock();
                state.synced = state.synced.max(length);
                true
            }
            Err(e) => {
                self.shared.fail(e);
                false
            }
        }
    }
}

pub struct FileWriter {
    pub name: PathBuf,
    file: Arc<File>,
    shared: Arc<Shared>,
    thread: Option<JoinHandle<()>>,
}

/// Opens a file to go on behind its first bytes; what is behind them is cut off. It is made where it is not there.
pub fn open_cut(name: &Path, length: u64) -> Result<File, Error> {
    let mut file = File::options().read(true).write(true).create(true).truncate(false).open(name)?;
    if !file.metadata()?.is_file() {
        return Err(Error::new(ErrorKind::InvalidInput, "it is no regular file"));
    }
    if file.metadata()?.len() < length {
        return Err(Error::new(ErrorKind::UnexpectedEof, "it is shorter than it was"));
    }
    file.set_len(length)?;
    file.sync_all()?;
    file.seek(SeekFrom::Start(length))?;
    Ok(file)
}

impl FileWriter {
    /// `open_cut`, and a thread that writes.
    pub fn open(name: &Path, length: u64) -> Result<FileWriter, Error> {
        let file = Arc::new(open_cut(name, length)?);
        let shared = Arc::new(Shared::default());
        (shared.lock().written, shared.lock().synced) = (length, length);
        let its = (file.clone(), shared.clone());
        Ok(FileWriter { name: name.into(), file, shared, thread: Some(spawn(move || write(&its.0, &its.1))) })
    }

    fn hand_over(&self, item: Item) {
        let length = item.bytes().len();
        let mut state = self.shared.lock();
        while state.waiting + length > MOST_WAITING && state.waiting != 0 && state.failed.is_none() {
            state = self.shared.changed.wait(state).unwrap();
        }
        if state.failed.is_none() {
            state.waiting += length;
            state.items.push_back(item);
            self.shared.changed.notify_all();
        }
    }

    pub fn put(&self, room: &Arc<Room>, feed: usize) {
        self.hand_over(Item::Block(room.clone(), feed));
    }

    pub fn put_bytes(&self, bytes: Vec<u8>) {
        self.hand_over(Item::Bytes(bytes));
    }

    pub fn mark(&self) -> Mark {
        let (sender, reached) = channel();
        self.hand_over(Item::Mark(sender));
        Mark { reached, file: self.file.clone(), shared: self.shared.clone() }
    }

    /// Bytes written.
    pub fn written(&self) -> u64 {
        self.shared.lock().written
    }

    /// Gives up a file that failed: it is cut to the whole samples that are on the disk for certain, and their bytes answered.
    pub fn given_up(mut self) -> u64 {
        self.join();
        let synced = self.shared.lock().synced;
        let certain = synced - synced % SAMPLE_LEN as u64;
        let _ = self.file.set_len(certain);
        certain
    }

    fn join(&mut self) {
        if let Some(thread) = self.thread.take() {
            let _ = thread.join();
        }
    }

    /// Why it failed, once.
    pub fn failure(&self) -> Option<Error> {
        let mut state = self.shared.lock();
        if state.reported {
            return None;
        }
        state.reported = state.failed.is_some();
        let e = state.failed.as_ref()?;
        Some(e.raw_os_error().map_or_else(|| Error::new(e.kind(), e.to_string()), Error::from_raw_os_error))
    }
}

impl Drop for FileWriter {
    /// Writes what was handed over, and no more.
    fn drop(&mut self) {
        self.hand_over(Item::End);
        self.join();
    }
}

/// The thread of a file: it ends with its last item, or where the file fails.
fn write(file: &File, shared: &Shared) {
    while let Some(item) = shared.next() {
        let done = match &item {
            Item::End => return,
            item => put_all(file, item.bytes(), shared),
        };
        if let Err(e) = done {
            return fail(file, e, shared);
        }
        let mut state = shared.lock();
        state.waiting = state.waiting.saturating_sub(item.bytes().len());
        if let Item::Mark(sender) = &item {
            let _ = sender.send(state.written);
        }
        shared.changed.notify_all();
    }
}

/// Writes bytes; those that were written count, where the others are not.
fn put_all(mut file: &File, mut bytes: &[u8], shared: &Shared) -> Result<(), Error> {
    while !bytes.is_empty() {
        match file.write(bytes) {
            Ok(0) => return Err(Error::from(ErrorKind::WriteZero)),
            Ok(n) => {
                bytes = &bytes[n..];
                shared.lock().written += n as u64;
            }
            Err(e) if e.kind() == ErrorKind::Interrupted => {}
            Err(e) => return Err(e),
        }
    }
    Ok(())
}

/// The file takes no more. What it has beyond a whole sample is cut off, and what remains is put on the disk if it can be.
fn fail(file: &File, e: Error, shared: &Shared) {
    let written = shared.lock().written;
    let whole = written - written % SAMPLE_LEN as u64;
    if file.set_len(whole).and_then(|()| file.sync_all()).is_ok() {
        let mut state = shared.lock();
        (state.written, state.synced) = (whole, whole);
    }
    shared.fail(e);
}
