//! The program `more1090`: commands over the library, each a file in commands/ and a line in `COMMANDS`.
//!
//! Exit status: 0 done; 1 refused; 2 wrong use; 3 a file or pipe failed.
mod draws;
mod exact;
mod messages;
mod more1090_generator;
mod scenario;
mod sha256;
mod sha512;
mod shell;
mod signals;
mod tapes;
mod commands {
    pub mod booking;
    pub mod cf32;
    pub mod heard;
    pub mod level;
    pub mod message;
    pub mod pages;
    pub mod rack;
    pub mod random;
    pub mod scenario;
    pub mod sigmf;
    pub mod single;
    pub mod soak;
    pub mod tape;
}

use shell::{Command, Failure};

const COMMANDS: &[Command] = &[
    commands::booking::COMMAND,
    commands::cf32::COMMAND,
    commands::heard::COMMAND,
    commands::level::COMMAND,
    commands::message::COMMAND,
    commands::pages::COMMAND,
    commands::rack::COMMAND,
    commands::random::COMMAND,
    commands::scenario::COMMAND,
    commands::sigmf::COMMAND,
    commands::single::COMMAND,
    commands::soak::COMMAND,
    commands::tape::COMMAND,
];

const VERSION: &str = include_str!("../../VERSION");

fn usage() -> String {
    let mut text = String::from("usage: more1090 COMMAND ..\n\n");
    for c in COMMANDS {
        text += &format!("    {:10} {}\n", c.name, c.summary);
    }
    text + "\n`more1090 COMMAND --help` says what a command takes; `more1090 --version` prints the version.\n\
        Exit status: 0 done; 1 refused; 2 wrong use; 3 a file or pipe failed.\n"
}

fn run(args: &[String]) -> Result<(), Failure> {
    let Some(name) = args.first() else {
        return Err(Failure::Use(usage()));
    };
    let words = &args[1..];
    match COMMANDS.iter().find(|c| c.name == name) {
        // Wherever it stands: who asks for help wants nothing done.
        Some(c) if words.iter().any(|w| w == "--help") => {
            shell::print(&format!("usage: more1090 {} {}\n\n{}", c.name, c.arguments, c.help))
        }
        Some(_) if words == ["--version"] => shell::print(&format!("more1090 {VERSION}")),
        Some(c) => (c.run)(words).map_err(|e| e.of_command(c)),
        None if name == "--help" || name == "--version" => match words.first() {
            Some(extra) => Err(Failure::Use(format!("{extra} is one argument too many\n\n{}", usage()))),
            None if name == "--help" => shell::print(&usage()),
            None => shell::print(&format!("more1090 {VERSION}")),
        },
        None => Err(Failure::Use(format!("there is no command {name}\n\n{}", usage()))),
    }
}

fn main() {
    signals::catch();
    let args: Result<Vec<String>, _> = std::env::args_os().skip(1).map(|a| a.into_string()).collect();
    let done = match args {
        Ok(args) => run(&args),
        Err(word) => Err(Failure::Use(format!("{} is not in UTF-8", word.to_string_lossy()))),
    };
    if let Err(failure) = done {
        failure.report();
        std::process::exit(failure.status());
    }
}
