//! `more1090 tape`: the records of a tape, as text.
use crate::more1090_generator::tape_text;
use crate::shell::{Command, Failure, Input, refused, words, write};
use crate::tapes;

pub const COMMAND: Command = Command {
    name: "tape",
    arguments: "[TAPE]",
    summary: "runs a tape, and prints its records",
    help: "Runs TAPE to its end and prints a header, a line for each record (first sample, type, count of samples, message in\n\
        hexadecimal, Mode A/C high byte first) and the number of samples. Of a tape that is refused it prints `refused` and the\n\
        number, and standard error says in words what that means. TAPE is standard input where it is left out or -.\n",
    run,
};

fn run(args: &[String]) -> Result<(), Failure> {
    let words = words(args, &[], 0, 1)?;
    let name = words.rest.first().unwrap_or(&"-");
    let mut input = Input::open(name)?;
    let (ending, records) = match tapes::open(&mut input)? {
        Err(ending) => (ending, Vec::new()),
        Ok(mut tape) => {
            let ending = tapes::run(&mut tape, &mut input, |_, _| Ok(()))?;
            (ending, tape.records(&ending).to_vec())
        }
    };
    write("-", &tape_text(&ending, &records))?;
    match ending.refusal {
        0 => Ok(()),
        number => Err(refused(number, ending.value, ending.field).of_file(name)),
    }
}
