//! A log held against records, against two routines written independently: a largest matching by augmenting paths on small
//! logs, and the rule read word for word on large ones.

use super::port::more1090_generator::{ENTRY_LEN as ENTRY, LogResult as Compared, NOBODY, RECORD_LEN as RECORD, compare_log_into};
use crate::random::Random;
use crate::tally::Tally;
use std::collections::HashMap;

/// What the lists hold before a call: it must stay where the call is refused.
const BEFORE: u64 = 0x5a5a_5a5a_5a5a_5a5a;

/// The answer, and what is left in lists of these lengths.
fn ours(log: &[u8], records: &[u8], tolerance: u64, entries: usize, sent: usize) -> (Compared, Vec<u64>, Vec<u64>) {
    let (mut partners, mut owners) = (vec![BEFORE; entries], vec![BEFORE; sent]);
    let answer = compare_log_into(log, records, tolerance, &mut partners, &mut owners);
    (answer, partners, owners)
}

fn below(r: &mut Random, n: u64) -> u64 {
    r.word() % n
}

/// A heard or sent message: its sample and its bytes.
#[derive(Clone, Debug)]
struct Message {
    sample: u64,
    kind: u8,
    bytes: Vec<u8>,
}

fn entry(m: &Message, filler: u8) -> [u8; ENTRY] {
    let mut e = [filler; ENTRY];
    e[..8].copy_from_slice(&m.sample.to_le_bytes());
    e[8] = m.bytes.len() as u8;
    e[9..9 + m.bytes.len()].copy_from_slice(&m.bytes);
    e
}

fn record(m: &Message, filler: u8) -> [u8; RECORD] {
    let mut e = [filler; RECORD];
    e[40..48].copy_from_slice(&m.sample.to_le_bytes());
    e[48] = m.kind;
    e[49..51].copy_from_slice(&(u16::from(filler) * 39).to_le_bytes());
    e[51] = m.bytes.len() as u8;
    e[52..52 + m.bytes.len()].copy_from_slice(&m.bytes);
    e
}

fn allowed(h: &Message, s: &Message, tolerance: u64) -> bool {
    h.bytes == s.bytes && h.sample.abs_diff(s.sample) <= tolerance
}

/// The rule: each entry in log order takes the earliest record that is free and allowed.
fn by_the_rule(heard: &[Message], sent: &[Message], tolerance: u64) -> (Vec<u64>, Vec<u64>) {
    let (mut partners, mut owners) = (vec![NOBODY; heard.len()], vec![NOBODY; sent.len()]);
    let mut by_message: HashMap<&[u8], Vec<usize>> = HashMap::new();
    for (j, s) in sent.iter().enumerate() {
        by_message.entry(&s.bytes).or_default().push(j);
    }
    for (i, h) in heard.iter().enumerate() {
        let alike = by_message.get(h.bytes.as_slice()).map_or(&[][..], Vec::as_slice);
        let free = alike.iter().copied().filter(|&j| owners[j] == NOBODY && allowed(h, &sent[j], tolerance));
        if let Some(j) = free.min_by_key(|&j| (sent[j].sample, j)) {
            partners[i] = j as u64;
            owners[j] = i as u64;
        }
    }
    (partners, owners)
}

/// The size of a largest matching, by augmenting paths.
fn largest(heard: &[Message], sent: &[Message], tolerance: u64) -> u64 {
    fn augment(i: usize, may: &[Vec<usize>], seen: &mut [bool], owner: &mut [Option<usize>]) -> bool {
        for &j in &may[i] {
            if !std::mem::replace(&mut seen[j], true) && owner[j].is_none_or(|k| augment(k, may, seen, owner)) {
                owner[j] = Some(i);
                return true;
            }
        }
        false
    }
    let may: Vec<Vec<usize>> =
        heard.iter().map(|h| (0..sent.len()).filter(|&j| allowed(h, &sent[j], tolerance)).collect()).collect();
    let mut owner = vec![None; sent.len()];
    (0..heard.len()).filter(|&i| augment(i, &may, &mut vec![false; sent.len()], &mut owner)).count() as u64
}

/// The type and bytes of a message; few different ones, so that many are alike.
fn message(r: &mut Random, different: u64) -> (u8, Vec<u8>) {
    let kind = below(r, 7) as u8;
    let length = [14, 7, 7, 7, 14, 14, 2][kind as usize];
    let mut bytes = vec![0; length];
    bytes[below(r, 2) as usize * (length - 1)] = below(r, different) as u8;
    (kind, bytes)
}

/// Records whose first samples fall by at most `back`, and a log of some of them, moved, with others between.
fn lists(r: &mut Random, heard: u64, sent: u64, back: u64, gap: u64, different: u64) -> (Vec<Message>, Vec<Message>) {
    let mut at = back;
    let records: Vec<Message> = (0..sent)
        .map(|_| {
            at += below(r, gap + 1);
            let (kind, bytes) = message(r, different);
            Message { sample: at - below(r, back + 1), kind, bytes }
        })
        .collect();
    let mut log: Vec<Message> = (0..heard)
        .map(|_| {
            let (kind, bytes) = message(r, different);
            match records.get(below(r, sent.max(1)) as usize) {
                Some(s) if !r.once_in(4) => Message { sample: (s.sample + below(r, 9)).saturating_sub(4), ..s.clone() },
                _ => Message { sample: below(r, at + gap + 1), kind, bytes },
            }
        })
        .collect();
    log.sort_by_key(|m| m.sample);
    (log, records)
}

fn bytes<const N: usize>(r: &mut Random, list: &[Message], of: fn(&Message, u8) -> [u8; N]) -> Vec<u8> {
    list.iter().flat_map(|m| of(m, r.word() as u8)).collect()
}

fn same(t: &mut Tally, r: &mut Random, heard: &[Message], sent: &[Message], tolerance: u64, small: bool) {
    let (log, records) = (bytes(r, heard, entry), bytes(r, sent, record));
    let (answer, partners, owners) = ours(&log, &records, tolerance, heard.len(), sent.len());
    let (their_partners, their_owners) = by_the_rule(heard, sent, tolerance);
    let pairs = their_partners.iter().filter(|&&p| p != NOBODY).count() as u64;
    let unheard = their_owners.iter().filter(|&&p| p == NOBODY).count() as u64;
    let unsent = heard.len() as u64 - pairs;
    t.alike("log against records: lists", (heard, sent, tolerance), (their_partners, their_owners), (partners, owners));
    t.alike("log against records: counts", (heard, sent, tolerance), Compared { pairs, unheard, unsent, refusal: 0, value: 0 }, answer);
    if small {
        t.alike("log against records: largest", (heard, sent, tolerance), largest(heard, sent, tolerance), answer.pairs);
    }
}

pub fn compare(t: &mut Tally, r: &mut Random, count: u64) {
    for _ in 0..count {
        let (h, s) = (below(r, 7), below(r, 7));
        let (back, gap, different, tolerance) = (below(r, 40), below(r, 12), 1 + below(r, 2), below(r, 30));
        let (heard, sent) = lists(r, h, s, back, gap, different);
        same(t, r, &heard, &sent, tolerance, true);
    }
    for size in [50, 300, 2000] {
        for _ in 0..1 + count / 10 / size {
            let (back, gap, different, tolerance) = (below(r, 40), 1 + below(r, 50), 1 + below(r, 4), below(r, 300));
            let (h, s) = (below(r, size), below(r, size));
            let (heard, sent) = lists(r, h, s, back, gap, different);
            same(t, r, &heard, &sent, tolerance, size <= 300);
        }
    }
    any_order(t, r, count / 20);
    worked(t, r);
    limits(t, r);
    refused(t, r, count / 20);
}

/// Records in any order, and samples and tolerances at the ends of u64.
fn any_order(t: &mut Tally, r: &mut Random, count: u64) {
    const ENDS: [u64; 8] = [0, 1, 5, 1 << 31, 1 << 52, 1 << 63, u64::MAX - 1, u64::MAX];
    for _ in 0..count {
        let end = |r: &mut Random| r.pick(&ENDS).wrapping_add(below(r, 3)).wrapping_sub(1);
        let (h, s) = (below(r, 6), below(r, 6));
        let mut heard: Vec<Message> = (0..h).map(|_| Message { sample: end(r), kind: 2, bytes: vec![0; 7] }).collect();
        heard.sort_by_key(|m| m.sample);
        let sent: Vec<Message> = (0..s).map(|_| Message { sample: end(r).min(1 << 52), kind: 3, bytes: vec![0; 7] }).collect();
        let tolerance = end(r);
        same(t, r, &heard, &sent, tolerance, true);
    }
}

/// Logs worked out on paper: samples heard, first samples sent, tolerance, each entry's record.
fn worked(t: &mut Tally, r: &mut Random) {
    let cases: [(&[u64], &[u64], u64, &[u64]); 8] = [
        (&[5], &[100, 5], 1, &[1]),
        (&[5, 10], &[10, 0], 5, &[1, 0]),
        (&[7], &[7, 7], 0, &[0]),
        (&[5], &[10], u64::MAX, &[0]),
        (&[u64::MAX], &[0], u64::MAX, &[0]),
        (&[7, 7], &[7, 7], 0, &[0, 1]),
        (&[6], &[5, 8], 2, &[0]),
        (&[10], &[6, 14], 3, &[NOBODY]),
    ];
    for (heard, sent, tolerance, expected) in cases {
        let of = |sample: &u64| Message { sample: *sample, kind: 6, bytes: vec![1, 2] };
        let (heard, sent): (Vec<_>, Vec<_>) = (heard.iter().map(of).collect(), sent.iter().map(of).collect());
        let (log, records) = (bytes(r, &heard, entry), bytes(r, &sent, record));
        let (_, partners, _) = ours(&log, &records, tolerance, heard.len(), sent.len());
        t.alike("log against records: worked", (heard, sent, tolerance), expected.to_vec(), partners);
    }
}

/// Each limit of what is refused, from both sides, and which refusal comes first.
fn limits(t: &mut Tally, r: &mut Random) {
    let of = |sample: u64, kind: u8, length: usize| Message { sample, kind, bytes: vec![9; length] };
    let good = (entry(&of(7, 2, 7), 0), record(&of(7, 2, 7), 0));
    let mut asked: Vec<(Vec<u8>, Vec<u8>, usize, usize, (u64, u64))> = Vec::new();
    let mut ask = |log: &[u8], records: &[u8], entries: usize, sent: usize, refusal: (u64, u64)| {
        asked.push((log.to_vec(), records.to_vec(), entries, sent, refusal));
    };
    ask(&good.0, &good.1, 1, 1, (0, 0));
    ask(&[], &[], 0, 0, (0, 0));
    for (a, b, c, d) in [(22, 66, 1, 1), (24, 66, 1, 1), (23, 65, 1, 1), (23, 67, 1, 1), (23, 66, 0, 1), (23, 66, 2, 1), (23, 66, 1, 0), (23, 66, 1, 2)] {
        let cut = |bytes: &[u8], n: usize| bytes.iter().copied().chain([0]).take(n).collect::<Vec<u8>>();
        ask(&cut(&good.0, a), &cut(&good.1, b), c, d, (9, 0));
    }
    for length in 0..=255usize {
        let mut e = good.0;
        e[8] = length as u8;
        ask(&e, &good.1, 1, 1, if [2, 7, 14].contains(&length) { (0, 0) } else { (16, 0) });
    }
    let three = |samples: [u64; 3]| samples.iter().flat_map(|&s| entry(&of(s, 0, 14), 0)).collect::<Vec<u8>>();
    ask(&three([5, 5, 5]), &good.1, 3, 1, (0, 0));
    ask(&three([5, 6, 5]), &good.1, 3, 1, (16, 0));
    ask(&three([0, u64::MAX, u64::MAX]), &good.1, 3, 1, (0, 0));
    ask(&three([1, 0, 2]), &good.1, 3, 1, (16, 0));
    for kind in 0..=255u8 {
        for length in [2, 7, 14] {
            let fits = kind < 7 && length == [14, 7, 7, 7, 14, 14, 2][kind as usize];
            ask(&good.0, &record(&of(1, kind, length), 0), 1, 1, if fits { (0, 0) } else { (18, 0) });
        }
    }
    for (first, count, refusal) in [(1 << 52, 9999u16, 0), ((1 << 52) + 1, 9999, 18), (0, 10_000, 18), (0, 65_535, 18)] {
        let mut e = record(&of(first, 2, 7), 0);
        e[49..51].copy_from_slice(&count.to_le_bytes());
        let both = [good.1, e].concat();
        ask(&good.0, &both, 1, 2, if refusal == 0 { (0, 0) } else { (18, 1) });
    }
    let (mut bad_entry, bad_record) = (good.0, record(&of(1, 7, 7), 0));
    bad_entry[8] = 6;
    ask(&bad_entry, &bad_record, 1, 1, (18, 0));
    ask(&bad_entry, &bad_record, 1, 2, (9, 0));
    for (log, records, entries, sent, refusal) in asked {
        let (answer, partners, owners) = ours(&log, &records, r.word(), entries, sent);
        t.alike("log against records: refusal", (&log, &records, entries, sent), refusal, (answer.refusal, answer.value));
        let kept = partners.iter().chain(&owners).all(|&x| x == BEFORE);
        let counts = [answer.pairs, answer.unheard, answer.unsent];
        if refusal.0 != 0 {
            t.alike("log against records: kept", (&log, &records), (true, [0; 3]), (kept, counts));
        }
    }
}

/// Damaged logs and records: refused as a second reading of the rules has it, or paired by the rule.
fn refused(t: &mut Tally, r: &mut Random, count: u64) {
    for _ in 0..count {
        let (h, s) = (1 + below(r, 4), 1 + below(r, 4));
        let (heard, sent) = lists(r, h, s, 8, 8, 2);
        let (mut log, mut records) = (bytes(r, &heard, entry), bytes(r, &sent, record));
        for _ in 0..below(r, 3) {
            let at = below(r, log.len() as u64) as usize;
            log[at] = r.word() as u8;
            let at = below(r, records.len() as u64) as usize;
            records[at] = r.word() as u8;
        }
        let at_fault = records.chunks(RECORD).position(|e| {
            let number = |from: usize, n: usize| (0..n).rev().fold(0u64, |v, k| v << 8 | u64::from(e[from + k]));
            let length = [14, 7, 7, 7, 14, 14, 2].get(e[48] as usize).copied();
            number(40, 8) > 1 << 52 || number(49, 2) > 9999 || length != Some(e[51])
        });
        let samples: Vec<u64> = log.chunks(ENTRY).map(|e| u64::from_le_bytes(e[..8].try_into().unwrap())).collect();
        let log_bad = !samples.is_sorted() || log.chunks(ENTRY).any(|e| ![2, 7, 14].contains(&e[8]));
        let expected = match (at_fault, log_bad) {
            (Some(k), _) => (18, k as u64),
            (None, true) => (16, 0),
            _ => (0, 0),
        };
        let (answer, partners, _) = ours(&log, &records, 9, h as usize, s as usize);
        t.alike("log against records: damaged", (&log, &records), expected, (answer.refusal, answer.value));
        if expected.0 == 0 {
            let part = |b: &[u8], at: usize, length: usize| b[at..at + length].to_vec();
            let heard: Vec<_> = log.chunks(ENTRY).zip(&samples).map(|(e, &sample)| Message { sample, kind: 0, bytes: part(e, 9, e[8] as usize) }).collect();
            let first = |e: &[u8]| u64::from_le_bytes(e[40..48].try_into().unwrap());
            let sent: Vec<_> = records.chunks(RECORD).map(|e| Message { sample: first(e), kind: 0, bytes: part(e, 52, e[51] as usize) }).collect();
            t.alike("log against records: damaged, paired", (&log, &records), by_the_rule(&heard, &sent, 9).0, partners);
        }
    }
}
