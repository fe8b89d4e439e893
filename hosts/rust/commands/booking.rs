//! `more1090 booking`: what a run of a tape's settings, taps and draws will use.
use crate::more1090_generator::{
    Booking, BookingEnd, DRAW_LEN, SETTINGS_LEN, SamplesPerPulse, booking,
};
use crate::shell::{Command, Failure, Input, floats_of, print, refused, words};

pub const COMMAND: Command = Command {
    name: "booking",
    arguments: "TAPE",
    summary: "what a run of a tape will use",
    help: "Prints the samples, noise values and records of the run of a tape's settings, taps and draws, and which draw ends it,\n\
        counted from 0, or that draws ran out. No sample is made. What stands behind the draws, as the noise, is not read, and\n\
        the number of draws is any. Settings are refused before what stands behind them is looked at. A tape that is short or\n\
        has a wrong section count is refused 11.\n",
    run,
};

/// A section: its bytes, so many for each of its count. A tape that is short or has another count is refused.
fn section(tape: &mut Input, count: Option<usize>, each: usize) -> Result<Vec<u8>, Failure> {
    let wrong = || refused(11, 0, 0);
    let number: [u8; 4] = tape.next(4)?.try_into().map_err(|_| wrong())?;
    let found = u32::from_le_bytes(number) as usize;
    if count.is_some_and(|n| n != found) {
        return Err(wrong());
    }
    let bytes = tape.next((found * each) as u64)?;
    if bytes.len() == found * each { Ok(bytes) } else { Err(wrong()) }
}

/// What is wrong with the settings alone: 5 says that there are no taps, which is not their fault.
fn check(settings: &[u8]) -> Result<(), Failure> {
    match booking(settings, &[], &[], &[]) {
        Err([number, value, field]) if number != 5 => Err(refused(number, value, field)),
        _ => Ok(()),
    }
}

fn run(args: &[String]) -> Result<(), Failure> {
    let name = words(args, &[], 1, 1)?.rest[0];
    print(&booked(&mut Input::open(name)?).map_err(|e| e.of_file(name))?)
}

fn booked(tape: &mut Input) -> Result<String, Failure> {
    let settings = section(tape, Some(1), SETTINGS_LEN)?;
    check(&settings)?;
    let setting = SamplesPerPulse::of_settings(&settings);
    let of_mode_s = setting.mode_s_taps_len();
    let taps = floats_of(&section(tape, Some(of_mode_s + setting.mode_ac_taps_len()), 4)?);
    let draws = section(tape, None, DRAW_LEN)?;
    let (taps_s, taps_ac) = taps.split_at(of_mode_s);
    let Booking { samples, noise, records, end, .. } = booking(&settings, taps_s, taps_ac, &draws)
        .map_err(|[number, value, field]| refused(number, value, field))?;
    let last = match end {
        BookingEnd::Draw(index) => format!("ends at draw {index}"),
        BookingEnd::RanOut(_) => "draws ran out".into(),
    };
    Ok(format!("samples {samples} noise {noise} records {records}\n{last}\n"))
}
