//! `more1090 cf32`: the samples of a tape for other tools, and its records.
use crate::more1090_generator::{Tape, TapeEnding};
use crate::shell::{
    Command, Failure, Input, Output, SUM, apart, apart_from_input, close_both, note, print_sums, refused, words_and_flags,
};
use crate::tapes;

pub const COMMAND: Command = Command {
    name: "cf32",
    arguments: "[--sum] TAPE SAMPLES [RECORDS]",
    summary: "runs a tape, and writes its samples and records",
    help: "Runs TAPE and writes its samples to SAMPLES, pairs of little-endian f32 at 8,000,000 or 16,000,000 a second, as the tape\n\
        says (cf32), and its records to RECORDS, 66 bytes each. For TAPE - is standard input, for the others standard output.\n\n\
        --sum                  print the SHA-256 of what was written, a line a file as sha256sum prints it; on standard\n\
        \x20                      error where an output is standard output\n\n\
        What stands before the tape's noise is checked before a file is touched. A file gets its name once the run is done,\n\
        and the samples before the records; a tape that is refused leaves no file, and files of that name as they were. A\n\
        pipe or device gets samples as they are made, and records once the run is done. Standard error has a line a second of\n\
        signal and one for how it ended: `records N, samples M`, or `refused N, samples M` and what the number means.\n",
    run,
};

/// A line on standard error for each second of signal, where the samples of a chunk reach it.
fn progress(tape: &Tape, samples: &[f32]) {
    let (rate, after) = (tape.samples_per_pulse().sample_rate(), tape.written());
    let before = after - samples.len() as u64 / 2;
    if before / rate < after / rate {
        note(&format!("second {}, samples {after}", after / rate));
    }
}

fn refusal(ending: &TapeEnding, name: &str) -> Failure {
    note(&format!("refused {}, samples {}", ending.refusal, ending.samples));
    refused(ending.refusal, ending.value, ending.field).of_file(name)
}

fn run(args: &[String]) -> Result<(), Failure> {
    let words = words_and_flags(args, &[], &[SUM], 2, 3)?;
    let (name, to, records_to) = (words.rest[0], words.rest[1], words.rest.get(2).copied());
    for output in [Some(to), records_to].into_iter().flatten() {
        apart_from_input(name, output)?;
    }
    if let Some(records_to) = records_to {
        apart(to, records_to)?;
    }
    let mut input = Input::open(name)?;
    let mut tape = tapes::open(&mut input)?.map_err(|ending| refusal(&ending, name))?;
    let sum = words.flag(SUM);
    let mut out = Output::open_binary(to)?.summed(sum);
    let mut records_out = records_to.map(Output::open_binary).transpose()?.map(|records| records.summed(sum));
    let ending = tapes::run(&mut tape, &mut input, |tape, samples| {
        out.put_at_once(&samples.iter().flat_map(|x| x.to_le_bytes()).collect::<Vec<u8>>())?;
        progress(tape, samples);
        Ok(())
    })?;
    if ending.refusal != 0 {
        return Err(refusal(&ending, name));
    }
    if let Some(records_out) = &mut records_out {
        records_out.put(tape.records(&ending))?;
    }
    let sums = Output::sum_lines([Some(&out), records_out.as_ref()].into_iter().flatten());
    match records_out {
        Some(records_out) => close_both(out, records_out)?,
        None => out.close()?,
    }
    note(&format!("records {}, samples {}", ending.records, ending.samples));
    print_sums(&sums, to == "-" || records_to == Some("-"))
}
