//! Checkpoints of a soak: their bytes (docs/SOAK.md), how a file of them is replaced so that a sound one is always there, and
//! which one a soak goes on from.
use super::system;
use crate::sha256::Sha256;
use crate::shell::{Failure, bytes_of};
use std::fs::{self, File};
use std::io::{Error, ErrorKind, Write};
use std::path::{Path, PathBuf};
use std::sync::atomic::{AtomicU64, Ordering::SeqCst};

const MAGIC: [u8; 8] = *b"soak1090";
const VERSION: u64 = 1;
const SUM_LEN: usize = 32;

/// A feed, or the records, at a checkpoint.
#[derive(Clone, Debug, Default, PartialEq)]
pub struct FeedAt {
    /// A file that failed, and that no more is written to.
    pub stopped: bool,
    /// The bytes of a file.
    pub length: u64,
    /// Samples that its reader did not get.
    pub lost: u64,
    /// How often it was dropped.
    pub drops: u64,
}

/// All that a soak goes on from.
#[derive(Clone, Debug, Default, PartialEq)]
pub struct Checkpoint {
    pub number: u64,
    pub drawn: u64,
    pub noisy: u64,
    pub samples: u64,
    pub replies: u64,
    pub added: u128,
    /// The longest that a block was ever late, in nanoseconds.
    pub latest: u64,
    pub done: bool,
    /// `Config::text`.
    pub text: String,
    /// Drawn and not taken.
    pub draws: Vec<u8>,
    /// Records that are not written yet, since no sample of their replies is.
    pub withheld: Vec<u8>,
    /// `kept::save`.
    pub run: Vec<u8>,
    pub records: u64,
    pub feeds: Vec<FeedAt>,
}

impl Checkpoint {
    /// The parts of its bytes, of which each is a write of its own.
    fn parts(&self) -> Vec<Vec<u8>> {
        let numbers = [self.number, self.drawn, self.noisy, self.samples, self.replies];
        let mut head: Vec<u8> = numbers.iter().flat_map(|n| n.to_le_bytes()).collect();
        head.extend(self.added.to_le_bytes());
        head.extend([self.latest, u64::from(self.done), self.records].iter().flat_map(|n| n.to_le_bytes()));
        let feed = |f: &FeedAt| [u64::from(f.stopped), f.length, f.lost, f.drops].map(u64::to_le_bytes).concat();
        let feeds: Vec<u8> = self.feeds.iter().flat_map(feed).collect();
        let mut parts = vec![head];
        for part in [self.text.as_bytes(), &self.draws, &self.withheld, &self.run, &feeds] {
            parts.push([&(part.len() as u64).to_le_bytes(), part].concat());
        }
        let length: usize = parts.iter().map(Vec::len).sum();
        parts.insert(0, [MAGIC, VERSION.to_le_bytes(), ((3 * 8 + length + SUM_LEN) as u64).to_le_bytes()].concat());
        let mut sum = Sha256::new();
        parts.iter().for_each(|part| sum.put(part));
        parts.push(bytes_of(&sum.hex()).unwrap_or_default());
        parts
    }

    /// Reads it back, or says why the bytes are none.
    pub fn of_bytes(bytes: &[u8]) -> Result<Checkpoint, String> {
        let mut left = Left(checked(bytes)?);
        let mut c = Checkpoint { number: left.word()?, drawn: left.word()?, noisy: left.word()?, ..Checkpoint::default() };
        (c.samples, c.replies) = (left.word()?, left.word()?);
        c.added = u128::from(left.word()?) | u128::from(left.word()?) << 64;
        (c.latest, c.done, c.records) = (left.word()?, left.word()? != 0, left.word()?);
        c.text = String::from_utf8(left.list()?.to_vec()).map_err(|_| "its text is none")?;
        (c.draws, c.withheld, c.run) = (left.list()?.to_vec(), left.list()?.to_vec(), left.list()?.to_vec());
        let mut feeds = Left(left.list()?);
        while !feeds.0.is_empty() {
            let stopped = feeds.word()? != 0;
            c.feeds.push(FeedAt { stopped, length: feeds.word()?, lost: feeds.word()?, drops: feeds.word()? });
        }
        if left.0.is_empty() { Ok(c) } else { Err("bytes are left over".into()) }
    }
}

/// The bytes between head and sum, where both hold.
fn checked(bytes: &[u8]) -> Result<&[u8], String> {
    let mut head = Left(bytes);
    if head.take(MAGIC.len()).ok() != Some(&MAGIC) {
        return Err("it does not begin as a checkpoint does".into());
    }
    let short = |_| format!("it is cut short, to {} bytes", bytes.len());
    let (version, length) = (head.word().map_err(short)?, head.word().map_err(short)?);
    if version != VERSION {
        return Err(format!("it is of version {version}, and this program reads version {VERSION}"));
    }
    if bytes.len() as u64 != length || head.0.len() < SUM_LEN {
        return Err(format!("it has {} bytes and says {length}", bytes.len()));
    }
    let (summed, sum) = bytes.split_at(bytes.len() - SUM_LEN);
    let mut computed = Sha256::new();
    computed.put(summed);
    if bytes_of(&computed.hex()).ok().as_deref() != Some(sum) {
        return Err("its bytes do not have its sum".into());
    }
    Ok(&head.0[..head.0.len() - SUM_LEN])
}

/// Bytes that are read from the front.
struct Left<'a>(&'a [u8]);

impl<'a> Left<'a> {
    fn take(&mut self, n: usize) -> Result<&'a [u8], String> {
        let (part, rest) = self.0.split_at_checked(n).ok_or("it ends within a part")?;
        self.0 = rest;
        Ok(part)
    }

    fn word(&mut self) -> Result<u64, String> {
        Ok(u64::from_le_bytes(self.take(8)?.try_into().unwrap()))
    }

    fn list(&mut self) -> Result<&'a [u8], String> {
        let length = self.word()?;
        self.take(usize::try_from(length).map_err(|_| "it ends within a part")?)
    }
}

/// The newest checkpoint, the one before it, the one that is being written, and the file that is locked.
pub fn names(newest: &Path) -> [PathBuf; 4] {
    let with = |end: &str| {
        let mut name = newest.as_os_str().to_owned();
        name.push(end);
        PathBuf::from(name)
    };
    [newest.into(), with(".before"), with(".part"), with(".lock")]
}

/// Steps of writing until the program ends itself, as a power cut would; 0 for never. It is for trying that every step may be
/// the last.
static STEPS_LEFT: AtomicU64 = AtomicU64::new(0);

/// From the environment: `MORE1090_SOAK_END_AT=N` ends the program at the Nth step of writing checkpoints.
pub fn end_at_step() {
    let steps = std::env::var("MORE1090_SOAK_END_AT").ok().and_then(|n| n.parse().ok());
    STEPS_LEFT.store(steps.unwrap_or(0), SeqCst);
}

fn step() {
    if STEPS_LEFT.load(SeqCst) != 0 && STEPS_LEFT.fetch_sub(1, SeqCst) == 1 {
        system::end_at_once();
    }
}

fn sync_folder(name: &Path) -> Result<(), Error> {
    let folder = name.parent().filter(|p| !p.as_os_str().is_empty()).unwrap_or(Path::new("."));
    File::open(folder)?.sync_all()
}

/// The folders that these names stand in are on the disk, and with them the names.
pub fn sync_names<'a>(names: impl Iterator<Item = &'a Path>) -> Result<(), Failure> {
    for name in names {
        sync_folder(name).map_err(|e| Failure::File(name.display().to_string(), e))?;
    }
    Ok(())
}

/// Where checkpoints are written.
pub struct Store {
    names: [PathBuf; 4],
    /// Whether the newest one is sound: only then may it take the place of the one before it.
    sound: bool,
}

impl Store {
    pub fn new(newest: &Path, sound: bool) -> Store {
        Store { names: names(newest), sound }
    }

    /// Writes a checkpoint whole under another name and gives it the newest one's, which becomes the one before it. Whenever it
    /// is ended, one of the two names has a sound checkpoint on the disk.
    pub fn write(&mut self, checkpoint: &Checkpoint) -> Result<(), Failure> {
        let [newest, before, part, _] = &self.names;
        let failed = |e| Failure::File(part.display().to_string(), e);
        step();
        let written = write_parts(part, checkpoint);
        if written.is_err() {
            let _ = fs::remove_file(part);
        }
        written.map_err(failed)?;
        step();
        let renamed = |from: &Path, to: &Path| {
            fs::rename(from, to).and_then(|()| sync_folder(to)).map_err(|e| Failure::File(to.display().to_string(), e))
        };
        if self.sound {
            renamed(newest, before)?;
            self.sound = false;
            step();
        }
        renamed(part, newest)?;
        self.sound = true;
        step();
        Ok(())
    }
}

fn write_parts(name: &Path, checkpoint: &Checkpoint) -> Result<(), Error> {
    let mut file = File::create(name)?;
    for part in checkpoint.parts() {
        step();
        file.write_all(&part)?;
    }
    step();
    file.sync_all()
}

/// What is there to go on from.
pub enum Found {
    /// No checkpoint, of either name.
    Nothing,
    /// A sound one, its name, whether it is the newest, and what is wrong with a newer one.
    Sound(Box<Checkpoint>, PathBuf, bool, Option<String>),
}

/// The newest sound checkpoint that passes a test of the caller's. It only reads. A sound one of another run than that of this
/// text ends the search: it is not for this soak to replace.
pub fn find(newest: &Path, text: &str, test: impl Fn(&Checkpoint) -> Result<(), String>) -> Result<Found, Failure> {
    let mut faults = Vec::new();
    for (k, name) in names(newest)[..2].iter().enumerate() {
        let bytes = match fs::read(name) {
            Ok(bytes) => bytes,
            Err(e) if e.kind() == ErrorKind::NotFound => continue,
            Err(e) => return Err(Failure::File(name.display().to_string(), e)),
        };
        let found = Checkpoint::of_bytes(&bytes);
        if let Some(other) = found.as_ref().ok().and_then(|c| difference(&c.text, text)) {
            return Err(Failure::Refused(format!("{} is of another run: {other}", name.display())));
        }
        match found.and_then(|c| test(&c).map(|()| c)) {
            Ok(c) => return Ok(Found::Sound(Box::new(c), name.clone(), k == 0, faults.pop())),
            Err(why) => faults.push(format!("{}: {why}", name.display())),
        }
    }
    if faults.is_empty() {
        return Ok(Found::Nothing);
    }
    let why = "no checkpoint can be gone on from, and nothing is touched";
    Err(Failure::Refused(format!("{why}: {}", faults.join("; "))))
}

/// The first line in which two texts differ.
fn difference(there: &str, here: &str) -> Option<String> {
    let lines = there.lines().count().max(here.lines().count());
    let line = |text: &str, k: usize| text.lines().nth(k).unwrap_or("no more").to_string();
    let k = (0..lines).find(|&k| line(there, k) != line(here, k))?;
    Some(format!("it has `{}`, and this one has `{}`", line(there, k), line(here, k)))
}
