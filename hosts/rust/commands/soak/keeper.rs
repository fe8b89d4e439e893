//! The thread that writes checkpoints, so that the run does not wait for the disk.
use super::checkpoint::{Checkpoint, Store};
use super::file::Mark;
use crate::shell::Failure;
use std::sync::mpsc::{Receiver, Sender, channel};
use std::sync::{Arc, Mutex};
use std::thread::{JoinHandle, scope, spawn};

/// A checkpoint, and what the files whose lengths it names had then: it is written when all of that is on the disk.
type Work = (Checkpoint, Vec<Mark>);

#[derive(Default)]
struct State {
    busy: bool,
    last: Option<(u64, u64)>,
    failure: Option<Failure>,
}

pub struct Keeper {
    sender: Option<Sender<Work>>,
    state: Arc<Mutex<State>>,
    thread: Option<JoinHandle<()>>,
}

impl Keeper {
    /// `last` is the number and the sample of the checkpoint that is there.
    pub fn new(store: Store, last: Option<(u64, u64)>) -> Keeper {
        let (sender, receiver) = channel();
        let state = Arc::new(Mutex::new(State { last, ..State::default() }));
        let its = state.clone();
        Keeper { sender: Some(sender), state, thread: Some(spawn(move || keep(store, &receiver, &its))) }
    }

    pub fn put(&self, checkpoint: Checkpoint, files: Vec<Mark>) {
        self.state.lock().unwrap().busy = true;
        if let Some(sender) = &self.sender {
            let _ = sender.send((checkpoint, files));
        }
    }

    pub fn busy(&self) -> bool {
        self.state.lock().unwrap().busy
    }

    /// The number and the sample of the last checkpoint.
    pub fn last(&self) -> Option<(u64, u64)> {
        self.state.lock().unwrap().last
    }

    pub fn failure(&self) -> Option<Failure> {
        self.state.lock().unwrap().failure.take()
    }

    /// All that it was given is written, or has failed.
    pub fn finish(&mut self) {
        self.sender = None;
        if let Some(thread) = self.thread.take() {
            let _ = thread.join();
        }
    }
}

impl Drop for Keeper {
    fn drop(&mut self) {
        self.finish();
    }
}

fn keep(mut store: Store, work: &Receiver<Work>, state: &Mutex<State>) {
    for (checkpoint, files) in work {
        // A file that failed says so itself, and this checkpoint would name bytes of it that are not there.
        let synced = all_on_disk(files);
        let written = if synced { Some(store.write(&checkpoint)) } else { None };
        let mut state = state.lock().unwrap();
        match written {
            Some(Ok(())) => state.last = Some((checkpoint.number, checkpoint.samples)),
            Some(Err(failure)) => state.failure = Some(failure),
            None => {}
        }
        state.busy = false;
    }
}

/// Puts the files on the disk, all at once.
fn all_on_disk(files: Vec<Mark>) -> bool {
    scope(|scope| {
        let threads: Vec<_> = files.into_iter().map(|file| scope.spawn(move || file.on_disk())).collect();
        threads.into_iter().map(|thread| thread.join().unwrap_or(false)).fold(true, |all, one| all && one)
    })
}
