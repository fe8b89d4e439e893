//! Lines of a soak on standard error, by a thread of their own: whoever does not read them stops nobody.
use crate::shell::note;
use std::sync::OnceLock;
use std::sync::mpsc::{Receiver, Sender, SyncSender, channel, sync_channel};
use std::thread::spawn;
use std::time::Duration;

enum Line {
    Text(String),
    /// Answered once the lines before are written.
    Flush(Sender<()>),
}

/// The lines that may wait to be written. More are left out.
const MOST_LINES: usize = 64;
/// How long the end of the soak may wait for them.
const LONGEST_FLUSH: Duration = Duration::from_secs(1);

static LINES: OnceLock<SyncSender<Line>> = OnceLock::new();

fn write(lines: Receiver<Line>) {
    for line in lines {
        match line {
            Line::Text(text) => note(&text),
            Line::Flush(done) => drop(done.send(())),
        }
    }
}

fn put(line: Line) {
    let lines = LINES.get_or_init(|| {
        let (sender, receiver) = sync_channel(MOST_LINES);
        spawn(move || write(receiver));
        sender
    });
    let _ = lines.try_send(line);
}

/// A line, which is left out where nobody reads.
pub fn say(text: impl Into<String>) {
    put(Line::Text(text.into()));
}

/// The lines so far are written, or nobody reads.
pub fn flush() {
    let (done, written) = channel();
    put(Line::Flush(done));
    let _ = written.recv_timeout(LONGEST_FLUSH);
}
