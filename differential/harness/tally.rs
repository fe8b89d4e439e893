//! Counts comparisons by name, reports differences and keeps the inputs that show them.

use std::collections::BTreeMap;
use std::path::PathBuf;

pub struct Tally {
    counts: BTreeMap<&'static str, (u64, u64)>,
    seen: BTreeMap<String, u64>,
    ranges: BTreeMap<&'static str, (u64, u64)>,
    folder: PathBuf,
    shown: usize,
}

impl Tally {
    pub fn new(folder: PathBuf) -> Tally {
        Tally {
            counts: BTreeMap::new(),
            seen: BTreeMap::new(),
            ranges: BTreeMap::new(),
            folder,
            shown: 0,
        }
    }

    /// One comparison: `wrong` says what differs, with the place and both values. The input is kept in a file.
    pub fn compare(&mut self, name: &'static str, seed: &str, input: &[u8], wrong: Option<String>) {
        let count = self.counts.entry(name).or_default();
        count.0 += 1;
        let Some(text) = wrong else { return };
        count.1 += 1;
        self.shown += 1;
        if self.shown > 50 {
            return;
        }
        let plain: String = format!("{name} {seed}")
            .chars()
            .map(|c| if c.is_ascii_alphanumeric() { c } else { '-' })
            .collect();
        let file = self.folder.join(format!("{plain}.bin"));
        let kept = std::fs::create_dir_all(&self.folder).and_then(|()| std::fs::write(&file, input));
        println!("DIFFERENCE {name}, seed {seed}: {text}");
        match kept {
            Ok(()) => println!("    input kept in {}", file.display()),
            Err(e) => println!("    input not kept: {e}"),
        }
    }

    /// One comparison of a function's answer at x.
    pub fn same<T: PartialEq + std::fmt::Debug>(
        &mut self,
        name: &'static str,
        x: f64,
        reference: T,
        ours: T,
    ) {
        let wrong = (reference != ours).then(|| format!("{reference:?} by the reference, {ours:?} by ours"));
        let bits = x.to_bits();
        self.compare(name, &format!("{bits:016x}"), &bits.to_le_bytes(), wrong);
    }

    /// One comparison of an answer to anything; where it differs, the file that is kept holds the input as text.
    pub fn alike<I: std::fmt::Debug, T: PartialEq + std::fmt::Debug>(
        &mut self,
        name: &'static str,
        input: I,
        reference: T,
        ours: T,
    ) {
        if reference == ours {
            return self.compare(name, "", &[], None);
        }
        let number = self.counts.get(name).map_or(0, |c| c.0);
        let text = format!("{input:?}: {reference:?} by the reference, {ours:?} by ours");
        let short = text.chars().take(400).collect();
        self.compare(name, &format!("case {number}"), text.as_bytes(), Some(short));
    }

    /// Counts what came about, so that a reader sees what was tried.
    pub fn see(&mut self, what: &str) {
        *self.seen.entry(what.to_string()).or_default() += 1;
    }

    /// Keeps the least and the greatest of some number.
    pub fn range(&mut self, what: &'static str, n: u64) {
        let r = self.ranges.entry(what).or_insert((n, n));
        *r = (r.0.min(n), r.1.max(n));
    }

    pub fn totals(&self) -> (u64, u64) {
        self.counts.values().fold((0, 0), |a, b| (a.0 + b.0, a.1 + b.1))
    }

    pub fn print(&self) {
        for (what, n) in &self.seen {
            println!("{n:9} times {what}");
        }
        for (what, (least, most)) in &self.ranges {
            println!("{least:9} to {most}: {what}");
        }
        for (name, (n, wrong)) in &self.counts {
            println!("{n:9} {name}, {wrong} differences");
        }
    }
}

/// The first place where two lists of bytes part, with what stands there.
pub fn first_difference(what: &str, reference: &[u8], ours: &[u8]) -> Option<String> {
    if reference == ours {
        return None;
    }
    if reference.len() != ours.len() {
        let shared = reference.iter().zip(ours).take_while(|(a, b)| a == b).count();
        return Some(format!(
            "{what}: {} bytes by the reference, {} by ours, alike for {shared}",
            reference.len(),
            ours.len()
        ));
    }
    let k = reference.iter().zip(ours).position(|(a, b)| a != b).unwrap();
    let from = k / 8 * 8;
    let to = (from + 8).min(ours.len());
    Some(format!(
        "{what}: byte {k}, from {from} on {:02x?} by the reference, {:02x?} by ours",
        &reference[from..to],
        &ours[from..to]
    ))
}

/// f32 values as bytes, so that every bit counts.
pub fn bytes_of(values: &[f32]) -> Vec<u8> {
    values.iter().flat_map(|x| x.to_le_bytes()).collect()
}

/// The bits of an f32; one pattern for every NaN.
pub fn pattern32(x: f32) -> u32 {
    if x.is_nan() { 0x7fc0_0000 } else { x.to_bits() }
}

/// The bits of an f64; one pattern for every NaN.
pub fn pattern64(x: f64) -> u64 {
    if x.is_nan() {
        0x7ff8_0000_0000_0000
    } else {
        x.to_bits()
    }
}

/// The bits of each.
pub fn patterns(values: &[f32]) -> Vec<u32> {
    values.iter().map(|x| pattern32(*x)).collect()
}
