//! What the tape program (SPECIFICATION 11.1) must print for any bytes, with the reference for the run.

use crate::judge::{self, Run, Stopped};
use crate::rules::{self, Refusal, refusal};
use crate::tape::*;

/// Reads bytes in order.
struct Reader<'a> {
    rest: &'a [u8],
}

impl<'a> Reader<'a> {
    /// The next n bytes; a short tape is refused.
    fn take(&mut self, n: usize) -> Result<&'a [u8], Refusal> {
        if self.rest.len() < n {
            return Err(refusal(11));
        }
        let (a, b) = self.rest.split_at(n);
        self.rest = b;
        Ok(a)
    }

    fn count(&mut self, right: impl Fn(usize) -> bool) -> Result<usize, Refusal> {
        let n = u32_at(self.take(4)?, 0) as usize;
        if right(n) { Ok(n) } else { Err(refusal(11)) }
    }
}

/// What became of a tape.
#[derive(Debug)]
pub enum Outcome {
    Run(Run),
    Refused(Refusal),
    /// The reference stopped in a way that the specification does not name: a finding. Or it is the other setting's tape.
    Surprise(String),
}

impl From<Refusal> for Outcome {
    fn from(r: Refusal) -> Outcome {
        Outcome::Refused(r)
    }
}

/// Reads the sections in tape order, each checked before the next is read.
fn read(bytes: &[u8]) -> Result<(Tape, bool), Outcome> {
    let mut r = Reader { rest: bytes };
    r.count(|n| n == 1)?;
    let settings = Settings::from_bytes(r.take(SETTINGS_BYTES)?);
    rules::settings(&settings)?;
    let of_mode_s = settings.numbers().mode_s_taps;
    let n = r.count(|n| n == of_mode_s + settings.numbers().mode_ac_taps)?;
    let taps = floats(r.take(4 * n)?);
    rules::taps(&settings, &taps[..of_mode_s], &taps[of_mode_s..])?;
    if settings.samples_per_pulse != SPP {
        return Err(Outcome::Surprise(format!("a tape at {OTHER} samples per pulse, and this reference has {SPP}")));
    }
    let [mode_s, mode_ac] = judge::prototypes(&taps, settings.trigger_level);
    rules::prototypes([&mode_s, &mode_ac], settings.trigger_level)?;
    let n = r.count(|n| n <= MOST_DRAWS)?;
    let draws: Vec<Draw> = r
        .take(DRAW_BYTES * n)?
        .chunks(DRAW_BYTES)
        .map(draw_from_bytes)
        .collect();
    rules::draws(&settings, &draws)?;
    let n = r.count(|_| true)?;
    let noise = floats(r.take(4 * n)?);
    rules::noise(&noise)?;
    let tape = Tape {
        settings,
        taps,
        draws,
        noise,
    };
    Ok((tape, r.rest.is_empty()))
}

pub fn outcome(bytes: &[u8]) -> Outcome {
    let (tape, whole) = match read(bytes) {
        Ok(t) => t,
        Err(outcome) => return outcome,
    };
    if tape.noise.len() as u128 / 2 < tape.settings.samples() {
        // The noise cannot last to Done, however the draws fall.
        return Outcome::Refused(refusal(11));
    }
    match judge::run(&tape) {
        Ok(_) if !whole => Outcome::Refused(refusal(11)),
        Ok(run) => Outcome::Run(run),
        Err(Stopped::RanOut(_)) => Outcome::Refused(refusal(11)),
        Err(Stopped::Error(text)) => Outcome::Surprise(format!("the reference returns an error: {text}")),
        Err(Stopped::Panic(text)) => Outcome::Surprise(format!("the reference panics: {text}")),
    }
}

/// The text that the program prints.
pub fn text(outcome: &Outcome) -> String {
    match outcome {
        Outcome::Refused(r) => format!("refused {}\n", r.number),
        Outcome::Surprise(why) => format!("{why}\n"),
        Outcome::Run(run) => {
            let mut t = String::from("first type count message\n");
            for r in run.records.chunks(RECORD_BYTES) {
                t += &line(r);
            }
            t + &format!("samples {}\n", run.samples.len() / 2)
        }
    }
}

fn line(r: &[u8]) -> String {
    let first = u64::from_le_bytes(r[40..48].try_into().unwrap());
    let count = u16::from_le_bytes([r[49], r[50]]);
    let message = match r[51] {
        2 => format!("{:04x}", u16::from_le_bytes([r[52], r[53]])),
        n => r[52..52 + usize::from(n)]
            .iter()
            .map(|b| format!("{b:02x}"))
            .collect(),
    };
    format!("{first} {} {count} {message}\n", r[48])
}
