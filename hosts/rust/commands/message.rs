//! `more1090 message`: what a message is, from its bytes.
use crate::more1090_generator::{Interrogator, class, flipped_bit, interrogator, parity};
use crate::shell::{Command, Failure, MODE_AC_DATA, bytes_of, print, words};

pub const COMMAND: Command = Command {
    name: "message",
    arguments: "HEX",
    summary: "class, parity and interrogator of a message",
    help: "Prints the class of a Mode S message of 7 or 14 bytes, its parity over all bytes, the one flipped bit that would\n\
        explain a parity other than 0, and for a short message of DF 11 the interrogator that it answers. Of a Mode A/C reply,\n\
        four digits as records are printed, the squawk and SPI.\n",
    run,
};

const CLASSES: [&str; 8] = [
    "extended squitter", "acquisition squitter", "short with address parity", "all-call reply", "long with address parity",
    "military extended squitter", "Mode A/C", "TIS-B",
];

const SPI: u16 = MODE_AC_DATA + 1;

/// Of a Mode A/C reply, high byte first.
fn squawk(word: u16) -> Result<String, Failure> {
    if word > MODE_AC_DATA + SPI {
        return Err(Failure::Use(format!("{word:04x}: a Mode A/C reply is 1fff at most, 12 bits of data and SPI")));
    }
    let spi = if word & SPI == 0 { "" } else { ", SPI" };
    Ok(format!("Mode A/C, squawk {:04o}{spi}\n", word & MODE_AC_DATA))
}

fn run(args: &[String]) -> Result<(), Failure> {
    let bytes = bytes_of(words(args, &[], 1, 1)?.rest[0])?;
    if let [high, low] = bytes[..] {
        return print(&squawk(u16::from_be_bytes([high, low]))?);
    }
    if ![7, 14].contains(&bytes.len()) {
        return Err(Failure::Use(format!("a message has 7 or 14 bytes, or 2 of Mode A/C, and not {}", bytes.len())));
    }
    let mut text = match class(&bytes) {
        Some(number) => format!("class {number}, {}\n", CLASSES[number as usize]),
        None => "class none\n".into(),
    };
    let all = parity(&bytes);
    text += &format!("parity {all:06x}\n");
    if let Some(place) = flipped_bit(all).filter(|&place| place < 8 * bytes.len() as u64) {
        text += &format!("flipped bit {place}, counted back from 0 at the last\n");
    }
    text += &match interrogator(&bytes) {
        Some(Interrogator::Ii(code)) => format!("interrogator II {code}\n"),
        Some(Interrogator::Si(code)) => format!("interrogator SI {code}\n"),
        Some(Interrogator::Unassigned) => "interrogator unassigned\n".into(),
        None => String::new(),
    };
    print(&text)
}
