//! Parity, making and classing, by the reference's functions. A record has 22 bytes: 14 message bytes, then what to do (0 parity,
//! 1 make, 2 class), the type, kind or length, the DF pick, the CA pick, the overlay, the data low byte first, and SPI. A line:
//!
//! - parity: the reference's, twice, since the program prints its own two routines. The first messages are published: the
//!   extended squitters of *The 1090 Megahertz Riddle*, whose parity is 0, and the check value of the CRC catalogue.
//! - make: the reference's message and the class that it gives it; out of range, where the reference cannot go, the field.
//! - class: the number of the reference's class, or `none`.

use crate::{judge, rules, tape};
use reference::mode_ac::ModeACReply;
use reference::mode_s::{CRC24, ModeSMessage};
use reference::simulation::distributions::MessageDistributions;
use reference::simulation::{MessageType, SSRReply};

pub fn records() -> Vec<u8> {
    vectors().records
}

pub fn lines() -> Vec<u8> {
    vectors().lines.into_bytes()
}

/// Extended squitters of The 1090 Megahertz Riddle.
const PUBLISHED: [&str; 6] = [
    "8D4840D6202CC371C32CE0576098",
    "8D406B902015A678D4D220AA4BDA",
    "8D485020994409940838175B284F",
    "8D40621D58C382D690C8AC2863A7",
    "8D40621D58C386435CC412692AD6",
    "8DA05F219B06B6AF189400CBC33F",
];

fn vectors() -> Vectors {
    let settings = settings();
    let mut v = Vectors {
        records: Vec::new(),
        lines: String::new(),
        all: judge::distributions(&settings).expect("constants of 0"),
        settings,
    };
    let mut s = Stream(1090);
    parities(&mut v, &mut s);
    replies(&mut v, &mut s);
    classes(&mut v, &mut s);
    v
}

/// Rates of 1 and constants of 0, so that only a reply's own fields can be at fault.
fn settings() -> tape::Settings {
    let mut s = crate::make::worked().settings;
    s.rates = [1.0; 7];
    s
}

/// A fixed stream of bytes, by a linear congruence.
struct Stream(u64);

impl Stream {
    fn byte(&mut self) -> u8 {
        self.0 = self
            .0
            .wrapping_mul(6364136223846793005)
            .wrapping_add(1442695040888963407);
        (self.0 >> 56) as u8
    }

    fn bytes(&mut self) -> [u8; 14] {
        std::array::from_fn(|_| self.byte())
    }
}

struct Vectors {
    records: Vec<u8>,
    lines: String,
    settings: tape::Settings,
    all: MessageDistributions,
}

/// A draw of these fields, with others in range.
fn draw(kind: u8, bytes: [u8; 14]) -> tape::Draw {
    tape::Draw {
        gap: 0.0,
        kind,
        cn0: 0.0,
        amplitude: 1.0,
        carrier: 0.0,
        phase: 0.0,
        clock: 0.0,
        df_pick: 0,
        ca_pick: 0,
        overlay: 0,
        bytes,
        data: 0,
        spi: 0,
    }
}

impl Vectors {
    fn record(&mut self, d: &tape::Draw, task: u8) {
        self.records.extend(d.bytes);
        self.records
            .extend([task, d.kind, d.df_pick, d.ca_pick, d.overlay]);
        self.records.extend(d.data.to_le_bytes());
        self.records.push(d.spi);
    }

    fn parity(&mut self, m: &[u8]) {
        let mut bytes = [0; 14];
        bytes[..m.len()].copy_from_slice(m);
        self.record(&draw(m.len() as u8, bytes), 0);
        let p = CRC24.checksum(m);
        self.lines += &format!("parity {p:06x} {p:06x}\n");
    }

    fn make(&mut self, d: &tape::Draw) {
        self.record(d, 1);
        self.lines += &match rules::field_at_fault(&self.settings, d) {
            Some(field) => format!("make {} refused {field}\n", d.kind),
            None => {
                let m = judge::config(d, 0.0, self.all).message;
                format!("make {} {} class {}\n", d.kind, shown(&m), class(&m))
            }
        };
    }

    fn class(&mut self, kind: u8, bytes: [u8; 14]) {
        self.record(&draw(kind, bytes), 2);
        let m = match kind {
            0 => SSRReply::ModeS(ModeSMessage::Short(bytes[..7].try_into().unwrap())),
            1 => SSRReply::ModeS(ModeSMessage::Long(bytes)),
            _ => SSRReply::ModeAC(ModeACReply::new(0, false).unwrap()),
        };
        self.lines += &format!("class {kind} {}\n", class(&m));
    }
}

/// A reply's kind, and its 14 bytes.
fn shown(m: &SSRReply) -> String {
    let mut bytes = judge::message_bytes(m);
    let kind = match bytes.len() {
        7 => 0,
        14 => 1,
        _ => 2,
    };
    bytes.resize(14, 0);
    let text: String = bytes.iter().map(|b| format!("{b:02x}")).collect();
    format!("{kind} {text}")
}

/// The Rust's class, which has no TIS-B: long messages of DF 18 with control 2, 3 or 5 are of class 7 (SPECIFICATION 7.5).
fn class(m: &SSRReply) -> String {
    let class = MessageType::from_message(m);
    if let SSRReply::ModeS(ModeSMessage::Long(bytes)) = m
        && [0x92, 0x93, 0x95].contains(&bytes[0])
    {
        assert_eq!(class, Some(MessageType::ExtendedSquitter));
        return "7".into();
    }
    let number = MessageType::ALL.iter().position(|t| Some(*t) == class);
    number.map_or("none".into(), |n| n.to_string())
}

fn parities(v: &mut Vectors, s: &mut Stream) {
    for text in PUBLISHED {
        let m: Vec<u8> = (0..14)
            .map(|i| u8::from_str_radix(&text[2 * i..2 * i + 2], 16).unwrap())
            .collect();
        assert_eq!(CRC24.checksum(&m), 0);
        v.parity(&m);
    }
    assert_eq!(CRC24.checksum(b"123456789"), 0x054268);
    v.parity(b"123456789");
    for length in 0..=14 {
        v.parity(&[0; 14][..length]);
        v.parity(&[255; 14][..length]);
        for _ in 0..8 {
            v.parity(&s.bytes()[..length]);
        }
    }
    for bit in 0..112 {
        let mut m = [0u8; 14];
        m[bit / 8] = 128 >> (bit % 8);
        v.parity(&m);
    }
}

fn replies(v: &mut Vectors, s: &mut Stream) {
    for kind in 0..7 {
        for df_pick in 0..12 {
            for ca_pick in [0, 1, 2, 3, 4, 5, 6, 255] {
                let uses_df = [0, 2, 4].contains(&kind) && !(kind == 0 && df_pick > 2);
                if df_pick > 0 && !uses_df || ca_pick > 1 && ![0, 1, 3].contains(&kind) {
                    continue;
                }
                for overlay in if kind == 3 {
                    vec![0, 1, 16, 127, 128, 255]
                } else {
                    vec![0]
                } {
                    v.make(&tape::Draw {
                        df_pick,
                        ca_pick,
                        overlay,
                        data: 5000,
                        spi: 2,
                        ..draw(kind, s.bytes())
                    });
                }
            }
        }
    }
    for data in [0, 1, 255, 256, 3584, 4095, 4096, 65535] {
        for spi in [0, 1, 2, 255] {
            v.make(&tape::Draw {
                df_pick: 255,
                ca_pick: 255,
                overlay: 255,
                data,
                spi,
                ..draw(6, s.bytes())
            });
        }
    }
    for kind in 0..7 {
        for fill in [0, 255] {
            v.make(&tape::Draw {
                overlay: 1,
                ..draw(kind, [fill; 14])
            });
        }
        for _ in 0..24 {
            v.make(&tape::Draw {
                bytes: s.bytes(),
                df_pick: s.byte() % [2, 1, 3, 1, 11, 1, 1][usize::from(kind)],
                ca_pick: s.byte() % 5,
                overlay: 1 + s.byte() % 127,
                data: u16::from(s.byte()) << 4 | u16::from(s.byte() >> 4),
                spi: s.byte() % 2,
                ..draw(kind, [0; 14])
            });
        }
    }
}

fn classes(v: &mut Vectors, s: &mut Stream) {
    for kind in 0..3 {
        for format in 0..32 {
            let mut bytes = s.bytes();
            bytes[0] = format << 3 | bytes[0] & 7;
            v.class(kind, bytes);
            let end = if kind == 0 { 4 } else { 11 };
            let crc = CRC24.checksum(&bytes[..end]);
            bytes[end..end + 3].copy_from_slice(&crc.to_be_bytes()[1..]);
            v.class(kind, bytes);
            bytes[end + 2] ^= 1;
            v.class(kind, bytes);
        }
    }
    // Every control of DF 18.
    for kind in 0..2 {
        for control in 0..8 {
            let mut bytes = [0; 14];
            bytes[0] = 18 << 3 | control;
            v.class(kind, bytes);
        }
    }
}
