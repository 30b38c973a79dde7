//! A program under test: its input given in pieces, and what it says where it cannot work.

use std::io::Write;
use std::process::{Command, Output, Stdio};
use std::time::Duration;

pub type Outcome = Result<String, String>;

/// Runs a command, giving its input in pieces of at most `chunk` bytes.
pub fn given(command: &mut Command, input: &[u8], chunk: usize) -> Result<Output, String> {
    let mut child = command.stdin(Stdio::piped()).spawn().map_err(|error| format!("{command:?}: {error}"))?;
    let mut pipe = child.stdin.take().expect("a pipe");
    let input = input.to_vec();
    let writer = std::thread::spawn(move || {
        for (number, piece) in input.chunks(chunk).enumerate() {
            if number > 0 {
                std::thread::sleep(Duration::from_micros(50)); // so that the program may read what there is
            }
            if pipe.write_all(piece).is_err() {
                break; // a program that has read enough may leave
            }
        }
    });
    let output = child.wait_with_output().map_err(|error| error.to_string());
    writer.join().map_err(|_| "the writer panicked")?;
    output
}

/// The same, with what it prints and says caught.
pub fn caught(command: &mut Command, input: &[u8], chunk: usize) -> Result<Output, String> {
    given(command.stdout(Stdio::piped()).stderr(Stdio::piped()), input, chunk)
}

/// The one line on standard error.
pub fn complaint(output: &Output) -> Outcome {
    let said = String::from_utf8_lossy(&output.stderr);
    match (said.lines().count(), said.ends_with('\n')) {
        (1, true) => Ok(said.trim_end().to_string()),
        _ => Err(format!("standard error {said:?}")),
    }
}

/// The same, where nothing was printed.
pub fn only_complaint(output: &Output) -> Outcome {
    match output.stdout.is_empty() {
        true => complaint(output),
        false => Err(format!("standard output {:?}", String::from_utf8_lossy(&output.stdout))),
    }
}
