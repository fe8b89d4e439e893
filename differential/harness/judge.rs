//! The reference on one tape: `Simulation::run` with one batch, fed with what the tape lends.

use crate::tape::{Asked, Draw, Settings, Tape};
use reference::mode_s::ModeSMessage;
use reference::simulation::distributions::*;
use reference::simulation::{
    MessageConfig, MessageType, MessagesPerSecond, SSRReply, Simulation, open, pulse_shape,
};
use std::cell::RefCell;
use std::panic::{AssertUnwindSafe, catch_unwind};
use std::time::Duration;

/// What the reference made: samples as pairs of f32, and records of 66 bytes.
#[derive(Debug, Default, PartialEq)]
pub struct Run {
    pub samples: Vec<f32>,
    pub records: Vec<u8>,
}

/// Why the reference gave no run.
#[derive(Debug, PartialEq)]
pub enum Stopped {
    RanOut(lent::RanOut),
    Error(String),
    Panic(String),
}

pub type Rng = rand::rngs::Xoshiro256PlusPlus;

/// The reference's distributions, or the text of its error. The kinds are 0 or 1.
pub fn distributions(s: &Settings) -> Result<MessageDistributions, String> {
    let text = |e: anyhow::Error| e.0;
    let carrier = |d: Asked| {
        Ok::<_, String>(match d.kind {
            0 => CarrierFrequencyOffsetDistribution::Constant(
                ConstantCarrierFrequencyOffset::new(d.first).map_err(text)?,
            ),
            _ => CarrierFrequencyOffsetDistribution::ClampedNormal(
                ClampedNormalCarrierFrequencyOffset::new(d.first, d.second).map_err(text)?,
            ),
        })
    };
    let phase = |d: Asked| {
        Ok::<_, String>(match d.kind {
            0 => CarrierPhaseDistribution::Constant(ConstantCarrierPhase::new(d.first).map_err(text)?),
            _ => CarrierPhaseDistribution::Uniform,
        })
    };
    let clock = |d: Asked| {
        Ok::<_, String>(match d.kind {
            0 => {
                SymbolClockErrorDistribution::Constant(ConstantSymbolClockError::new(d.first).map_err(text)?)
            }
            _ => SymbolClockErrorDistribution::Uniform(UniformSymbolClockError::new(d.first).map_err(text)?),
        })
    };
    Ok(MessageDistributions {
        cn0: CN0Distribution::default(),
        carrier_frequency_offset: carrier(s.carrier)?,
        carrier_phase: phase(s.phase)?,
        symbol_clock_error: clock(s.clock)?,
    })
}

fn rates(s: &Settings) -> MessagesPerSecond {
    let r = s.rates;
    MessagesPerSecond {
        extended_squitter: r[0],
        acquisition_squitter: r[1],
        short_ap: r[2],
        all_call_reply: r[3],
        long_ap: r[4],
        military_extended_squitter: r[5],
        mode_ac: r[6],
    }
}

/// Taps, and the prototypes made of them.
type Made = (Vec<f32>, [Vec<f32>; 2]);

thread_local! {
    static LAST: RefCell<Option<Made>> = const { RefCell::new(None) };
}

/// The two prototypes, Mode S and Mode A/C, of taps that are lent with a trigger level. Those of the taps lent last are kept.
pub fn prototypes(taps: &[f32], level: f32) -> [Vec<f32>; 2] {
    lent::lend_taps(taps, level);
    LAST.with_borrow_mut(|last| match last {
        Some((t, made)) if same_bits(t, taps) => made.clone(),
        _ => {
            let made = [
                pulse_shape::open::mode_s_prototype(),
                pulse_shape::open::mode_ac_prototype(),
            ];
            *last = Some((taps.to_vec(), made.clone()));
            made
        }
    })
}

fn same_bits(a: &[f32], b: &[f32]) -> bool {
    a.len() == b.len() && a.iter().zip(b).all(|(x, y)| x.to_bits() == y.to_bits())
}

/// The message configuration of one draw at its time. The draw stays the one taken last.
pub fn config(d: &Draw, time: f64, all: MessageDistributions) -> MessageConfig {
    lent::lend(std::slice::from_ref(d), &[]);
    lent::gap();
    MessageConfig::from_distributions(time, all, MessageType::ALL[usize::from(d.kind)], &mut Rng {})
}

/// The message as its record holds it.
pub fn message_bytes(m: &SSRReply) -> Vec<u8> {
    match m {
        SSRReply::ModeS(ModeSMessage::Short(b)) => b.to_vec(),
        SSRReply::ModeS(ModeSMessage::Long(b)) => b.to_vec(),
        SSRReply::ModeAC(r) => (r.data() | u16::from(r.spi()) << 12).to_le_bytes().to_vec(),
    }
}

/// The record of a message; its count is the number of samples that it adds.
pub fn record(m: &MessageConfig) -> Vec<u8> {
    let mut b = Vec::new();
    for x in [
        m.timestamp_samples,
        m.cn0_db,
        m.carrier_frequency_offset,
        m.carrier_phase,
        m.symbol_clock_error,
    ] {
        b.extend(x.to_le_bytes());
    }
    b.extend((open::first_sample_index(m) as u64).to_le_bytes());
    let class = MessageType::from_message(&m.message).expect("a made message has a class");
    b.push(MessageType::ALL.iter().position(|t| *t == class).unwrap() as u8);
    b.extend((open::samples(m).len() as u16).to_le_bytes());
    let bytes = message_bytes(&m.message);
    b.push(bytes.len() as u8);
    b.extend(&bytes);
    b.resize(66, 0);
    b
}

/// Runs the reference with one batch that covers the run. The caller has seen to it that the samples fit in memory.
pub fn run(tape: &Tape) -> Result<Run, Stopped> {
    let samples = usize::try_from(tape.settings.samples()).unwrap();
    run_in_batches(tape, samples.max(1))
}

pub fn run_in_batches(tape: &Tape, batch_size: usize) -> Result<Run, Stopped> {
    lent::lend_taps(&tape.taps, tape.settings.trigger_level);
    lent::lend(&tape.draws, &tape.noise);
    let done = catch_unwind(AssertUnwindSafe(|| go(tape, batch_size)));
    match done {
        Ok(Ok(run)) => Ok(run),
        Ok(Err(text)) => Err(Stopped::Error(text)),
        Err(payload) => Err(match payload.downcast_ref::<lent::RanOut>() {
            Some(r) => Stopped::RanOut(*r),
            None => Stopped::Panic(panic_text(payload)),
        }),
    }
}

pub fn panic_text(payload: Box<dyn std::any::Any + Send>) -> String {
    match payload.downcast::<String>() {
        Ok(s) => *s,
        Err(p) => match p.downcast::<&str>() {
            Ok(s) => s.to_string(),
            Err(_) => "a panic without a text".to_string(),
        },
    }
}

fn go(tape: &Tape, batch_size: usize) -> Result<Run, String> {
    let s = &tape.settings;
    let simulation = Simulation {
        duration: Duration::new(s.seconds, s.nanoseconds),
        messages_per_second: rates(s),
        message_distributions: distributions(s)?,
        batch_size,
    };
    let mut written = Vec::new();
    let mut records = Vec::new();
    simulation
        .run(&mut Rng {}, &mut written, |m| {
            let r = record(m);
            assert_eq!(
                r[48],
                lent::draw().kind,
                "a message of another class than its type"
            );
            records.extend(r);
            Ok(())
        })
        .map_err(|e| e.0)?;
    Ok(Run {
        samples: written.iter().flat_map(|z| [z.re, z.im]).collect(),
        records,
    })
}
