//! `more1090 pages`: records on paper.
use crate::more1090_generator::{PAGE_LEN, PAGE_LINES, RECORD_LEN, pages};
use crate::shell::{Command, Failure, LENGTH_REFUSED, apart_from_input, read, refused, refused_length, words, write};

pub const COMMAND: Command = Command {
    name: "pages",
    arguments: "RECORDS [OUT]",
    summary: "records on paper, for a printer or a pager",
    help: "Writes a line of 72 bytes for each record of 66 bytes: first sample, type, count of samples and message in\n\
        hexadecimal; 60 lines a page, the last page padded with lines of blanks. RECORDS may be - for standard input, and OUT\n\
        is standard output where it is left out or -. Nothing is written where a record is refused.\n",
    run,
};

fn run(args: &[String]) -> Result<(), Failure> {
    let words = words(args, &[], 1, 2)?;
    let (name, out) = (words.rest[0], words.rest.get(1).copied().unwrap_or("-"));
    apart_from_input(name, out)?;
    let records = read(name)?;
    let count = (records.len() / RECORD_LEN).div_ceil(PAGE_LINES);
    let mut paper = vec![0; count * PAGE_LEN];
    match pages(&records, &mut paper) {
        r if r.refusal == LENGTH_REFUSED => Err(refused_length("records", RECORD_LEN).of_file(name)),
        r if r.refusal != 0 => Err(refused(r.refusal, r.value, 0).of_file(name)),
        _ => write(out, &paper),
    }
}
