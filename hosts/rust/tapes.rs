//! A tape read from a file or pipe and run. What is refused, and in which order, the library says; here are bytes read.
use crate::more1090_generator::{SectionEnd, Tape, TapeEnding, tape_head_length};
use crate::shell::{Failure, Input};

/// Noise values of a chunk; the output beside them has room for a sample more.
const CHUNK: usize = 1 << 14;

/// A tape whose head is accepted; or the ending of one whose head is refused.
pub fn open(input: &mut Input) -> Result<Result<Tape, TapeEnding>, Failure> {
    let mut head = Vec::new();
    loop {
        let wanted = tape_head_length(&head);
        let at = head.len();
        if at >= wanted {
            break;
        }
        head.resize(wanted, 0);
        let got = input.fill(&mut head[at..])?;
        head.truncate(at + got);
        if at + got < wanted {
            break;
        }
    }
    Ok(Tape::open(&head).map_err(|[refusal, value, field]| TapeEnding { refusal, value, field, records: 0, samples: 0 }))
}

/// Feeds it the noise that stands behind its head, and hands on the samples of each chunk.
pub fn run(
    tape: &mut Tape,
    input: &mut Input,
    mut take: impl FnMut(&Tape, &[f32]) -> Result<(), Failure>,
) -> Result<TapeEnding, Failure> {
    let mut output = vec![0.0; CHUNK + 2];
    let mut bytes = vec![0; 4 * CHUNK];
    let mut left = tape.noise();
    // First a chunk of none: a run of no samples is done by it.
    let mut wanted = 0;
    loop {
        let got = input.fill(&mut bytes[..4 * wanted])?;
        let short = got < 4 * wanted;
        // Of a chunk that is short nothing is fed.
        let chunk = if short { &[][..] } else { &bytes[..got] };
        let noise: Vec<f32> = chunk.chunks_exact(4).map(|b| f32::from_le_bytes([b[0], b[1], b[2], b[3]])).collect();
        let samples = tape.feed(&noise, &mut output);
        take(tape, samples)?;
        if short {
            return Ok(tape.ending(SectionEnd::Short));
        }
        left -= wanted as u64;
        wanted = left.min(CHUNK as u64) as usize;
        if wanted == 0 {
            let over = input.fill(&mut [0])? != 0;
            return Ok(tape.ending(if over { SectionEnd::LeftOver } else { SectionEnd::Whole }));
        }
    }
}
