//! The port's programs, which are only fed and read: any program that keeps to README.md's two protocols will do.

use std::io::Write;
use std::path::PathBuf;
use std::process::{Command, Stdio};

pub struct Ours {
    pub tape: Option<PathBuf>,
    pub calls: Option<PathBuf>,
}

/// What a program writes for an input; how it ended, if not well.
pub fn answer(program: &PathBuf, input: &[u8]) -> Result<Vec<u8>, String> {
    let mut child = Command::new(program)
        .stdin(Stdio::piped())
        .stdout(Stdio::piped())
        .spawn()
        .map_err(|e| format!("{} does not start: {e}", program.display()))?;
    let mut stdin = child.stdin.take().unwrap();
    let output = std::thread::scope(|s| {
        // A program that refuses need not read to the end: a closed pipe is no fault.
        s.spawn(move || stdin.write_all(input));
        child.wait_with_output()
    })
    .map_err(|e| e.to_string())?;
    if output.status.success() {
        Ok(output.stdout)
    } else {
        Err(format!("{} ended with {}", program.display(), output.status))
    }
}
