//! The program for the desks as a process: its words as arguments, and a table's text as its input.

use std::fs::File;
use std::io::Write;
use std::path::PathBuf;
use std::process::{Command, Output, Stdio};
use std::sync::atomic::{AtomicU64, Ordering};

/// The program, or the one that PARTS names.
fn program() -> Result<Command, String> {
    let named = std::env::var_os("PARTS").filter(|name| !name.is_empty());
    let path = named.map_or_else(|| PathBuf::from("target/bin/parts"), PathBuf::from);
    if path.is_file() {
        Ok(Command::new(path))
    } else {
        Err(format!("no program at {}", path.display()))
    }
}

fn started<T>(result: std::io::Result<T>) -> Result<T, String> {
    result.map_err(|error| format!("the program did not run: {error}"))
}

/// What the program wrote, through pipes. One that stops reading early is no fault of the run.
fn through_pipes(words: &[String], input: &[u8]) -> Result<Output, String> {
    let mut command = program()?;
    command.args(words).stdin(Stdio::piped()).stdout(Stdio::piped()).stderr(Stdio::piped());
    let mut child = started(command.spawn())?;
    let given = input.to_vec();
    let writer = child.stdin.take().map(|mut pipe| {
        std::thread::spawn(move || {
            let _ = pipe.write_all(&given);
        })
    });
    let ended = started(child.wait_with_output())?;
    if writer.map_or(false, |writer| writer.join().is_err()) {
        return Err("the input was not given".to_string());
    }
    Ok(ended)
}

/// What the program prints; it ends well and writes nothing on standard error.
pub fn printed(words: &[String], input: &[u8]) -> Result<Vec<u8>, String> {
    let ended = through_pipes(words, input)?;
    if !ended.status.success() || !ended.stderr.is_empty() {
        let errors = ended.stderr.escape_ascii();
        return Err(format!("the program ended with {} and wrote \"{errors}\"", ended.status));
    }
    Ok(ended.stdout)
}

/// What the program wrote with this file as its input.
pub fn with_file(words: &[String], file: File) -> Result<Output, String> {
    started(program()?.args(words).stdin(file).output())
}

/// The same with no input.
pub fn with_nothing(words: &[String]) -> Result<Output, String> {
    started(program()?.args(words).stdin(Stdio::null()).output())
}

/// A file with these bytes, under a name of its own.
fn second_file(bytes: &[u8]) -> Result<PathBuf, String> {
    static FILES: AtomicU64 = AtomicU64::new(0);
    let number = FILES.fetch_add(1, Ordering::Relaxed);
    let path = std::env::temp_dir().join(format!("second-{}-{number}", std::process::id()));
    std::fs::write(&path, bytes).map_err(|error| format!("{}: {error}", path.display()))?;
    Ok(path)
}

/// What the program wrote of an input and a second one, which stands in a file.
pub fn beside(command: &str, input: &[u8], second: &[u8]) -> Result<Output, String> {
    let path = second_file(second)?;
    let words = [command.to_string(), path.display().to_string()];
    let ended = through_pipes(&words, input);
    let removed = std::fs::remove_file(&path).map_err(|error| error.to_string());
    ended.and_then(|ended| removed.map(|()| ended))
}
