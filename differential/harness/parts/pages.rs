//! Records on paper against a second routine, by Rust's own formatting; and lines read back.

use super::port::more1090_generator::{PagesResult as Answer, page_line_into, pages};
use crate::random::Random;
use crate::tally::Tally;

const LIMITS: [u64; 8] = [0, 9, 10, 9_999_999_999, (1 << 52) - 1, 1 << 52, (1 << 52) + 1, u64::MAX];

/// What was in the output's place before.
const OLD: u8 = 0x5a;

struct Record {
    first: u64,
    kind: u8,
    count: u16,
    size: u8,
    message: [u8; 14],
    /// The five f64 in front, which no line shows.
    floats: [u8; 40],
}

fn size_of(kind: u8) -> u8 {
    match kind {
        0 | 4 | 5 => 14,
        1..=3 => 7,
        _ => 2,
    }
}

impl Record {
    fn bytes(&self) -> Vec<u8> {
        let mut b = self.floats.to_vec();
        b.extend(self.first.to_le_bytes());
        b.push(self.kind);
        b.extend(self.count.to_le_bytes());
        b.push(self.size);
        b.extend(self.message);
        b
    }

    fn good(&self) -> bool {
        self.first <= 1 << 52 && self.kind <= 6 && self.count <= 9_999 && self.size == size_of(self.kind)
    }

    fn line(&self) -> String {
        let hex: String = match self.kind {
            6 => format!("{:04x}", u16::from_le_bytes([self.message[0], self.message[1]])),
            _ => self.message[..self.size as usize].iter().map(|b| format!("{b:02x}")).collect(),
        };
        format!("{:>16} {} {:>4} {hex:<28}{:20}", self.first, self.kind, self.count, "")
    }

    fn any(r: &mut Random) -> Record {
        let kind = r.below(7) as u8;
        let first = if r.once_in(3) { r.pick(&LIMITS[..6]) } else { r.word() >> r.between(12, 63) };
        let count = if r.once_in(4) { r.pick(&[0, 9, 10, 99, 999, 1_000, 1_094, 9_999]) } else { r.below(10_000) as u16 };
        Record { first, kind, count, size: size_of(kind), message: r.bytes(), floats: r.bytes() }
    }
}

/// The whole answer by the second routine: number, value, pages, and the output afterwards.
fn expected(records: &[Record], extra: usize, room: usize) -> (Answer, Vec<u8>) {
    let pages = records.len().div_ceil(60);
    let refused = |refusal, value| (Answer { refusal, value, pages: 0 }, vec![OLD; room]);
    if extra % 66 != 0 || room < 4_380 * pages {
        return refused(9, 0);
    }
    if let Some(k) = records.iter().position(|x| !x.good()) {
        return refused(18, k as u64);
    }
    let mut text: String = records.iter().map(|x| x.line() + "\n").collect();
    for _ in records.len()..60 * pages {
        text += &format!("{:72}\n", "");
    }
    let mut out = text.into_bytes();
    out.resize(room, OLD);
    (Answer { refusal: 0, value: 0, pages: pages as u64 }, out)
}

/// Records, some bytes behind them, and room in bytes.
fn check(t: &mut Tally, name: &'static str, records: &[Record], extra: usize, room: usize) {
    let mut bytes: Vec<u8> = records.iter().flat_map(Record::bytes).collect();
    bytes.extend(vec![0; extra]);
    let mut out = vec![OLD; room];
    let answer = pages(&bytes, &mut out);
    let (its, left) = expected(records, extra, room);
    t.alike(name, (records.len(), extra, room), (its, left == out), (answer, true));
}

/// The line of an accepted record gives its four fields.
fn read_back(t: &mut Tally, x: &Record) {
    let line = x.line();
    let mut message = [OLD; 14];
    let f = page_line_into(line.as_bytes(), &mut message);
    let mut shown = [0; 14];
    shown[..x.size as usize].copy_from_slice(&x.message[..x.size as usize]);
    t.alike("a line read back", &line, (1, x.first, x.kind as u64, x.count as u64, x.size as u64, shown), (f.found, f.first_sample, f.kind, f.count, f.message_length, message));
}

/// Bytes of any number; of 72, some with a type in its column.
fn any_bytes(t: &mut Tally, r: &mut Random) {
    let n = if r.once_in(2) { 72 } else { r.below(160) };
    let mut line: Vec<u8> = (0..n).map(|_| r.pick(b"  0123456789abcdefABG/:`~\n\xff")).collect();
    if n > 17 && r.once_in(2) {
        line[17] = r.pick(b"/0123456789 ");
    }
    let mut message = [OLD; 14];
    let f = page_line_into(&line, &mut message);
    let digit = |c: u8| (c as char).to_digit(10).unwrap_or(0) as u64;
    let value = |c: &[u8]| c.iter().fold(0, |v, &c| v * 10 + digit(c));
    let hex = |c: u8| if c.is_ascii_uppercase() { 0 } else { (c as char).to_digit(16).unwrap_or(0) as u8 };
    let mut shown = [0; 14];
    let its = if n == 72 && (b'0'..=b'6').contains(&line[17]) {
        let kind = line[17] - b'0';
        let size = size_of(kind) as usize;
        for (k, b) in shown[..size].iter_mut().enumerate() {
            let at = 24 + 2 * if kind == 6 { 1 - k } else { k };
            *b = 16 * hex(line[at]) + hex(line[at + 1]);
        }
        (1, value(&line[..16]), kind as u64, value(&line[19..23]), size as u64)
    } else {
        (0, 0, 0, 0, 0)
    };
    t.alike("bytes read as a line", &line, (its, shown), ((f.found, f.first_sample, f.kind, f.count, f.message_length), message));
}

pub fn compare(t: &mut Tally, r: &mut Random, count: u64) {
    for n in [0usize, 1, 2, 59, 60, 61, 119, 120, 121] {
        let records: Vec<Record> = (0..n).map(|_| Record::any(r)).collect();
        let room = 4_380 * n.div_ceil(60);
        for extra in [0, 1, 65] {
            for room in [room, room + 1, room + 4_380, room.saturating_sub(1), 0] {
                check(t, "pages by number of records", &records, extra, room);
            }
        }
    }
    for first in LIMITS {
        for kind in 0..9 {
            for size in [0, 1, 2, 3, 6, 7, 8, 13, 14, 15, 255] {
                for count in [0, 9_999, 10_000, u16::MAX] {
                    let x = Record { first, kind, count, size, message: r.bytes(), floats: r.bytes() };
                    let records = [Record::any(r), x, Record { kind: 7, ..Record::any(r) }];
                    check(t, "pages of limits", &records[..2], 0, 4_380);
                    check(t, "pages of two records at fault", &records, 0, 4_381);
                    check(t, "pages of faults and short room", &records, 0, 4_379);
                }
            }
        }
    }
    for _ in 0..count / 50 {
        let mut records: Vec<Record> = (0..r.below(150)).map(|_| Record::any(r)).collect();
        if r.once_in(3) && !records.is_empty() {
            let k = r.below(records.len());
            match r.below(4) {
                0 => records[k].first = (1 << 52) + 1 + (r.word() >> r.between(12, 63)),
                1 => records[k].kind = r.between(7, 255) as u8,
                2 => records[k].count = r.between(10_000, 65_535) as u16,
                _ => records[k].size = r.below(256) as u8,
            }
        }
        let room = 4_380 * records.len().div_ceil(60) + r.pick(&[0, 0, 1, 5_000]);
        check(t, "pages of any records", &records, 0, room);
    }
    for _ in 0..count {
        let x = Record::any(r);
        read_back(t, &x);
        any_bytes(t, r);
    }
}
