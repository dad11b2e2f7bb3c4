//! Runs the tools of the system.

use std::process::Command;

// How many lines of what a failed command printed its error has.
const LINES: usize = 20;

/// Runs a command, and returns what it printed. If it cannot be run or fails, the error says so,
/// and has the last lines of what it printed.
pub fn run(command: &mut Command) -> Result<String, String> {
    let program = command.get_program().to_string_lossy().into_owned();
    let ran = command.output().map_err(|error| format!("{program} could not be run: {error}"))?;
    let printed = String::from_utf8_lossy(&ran.stdout).into_owned();
    if ran.status.success() {
        return Ok(printed);
    }
    let errors = String::from_utf8_lossy(&ran.stderr);
    let lines: Vec<&str> = printed.lines().chain(errors.lines()).collect();
    let last = &lines[lines.len().saturating_sub(LINES)..];
    Err(format!("{program} failed ({}):\n{}", ran.status, last.join("\n")))
}

/// Says that something is not there, and why.
pub fn print_left_out(name: &str, fault: &str) {
    println!("left out: {name}: {}", reason(fault));
}

// The line of an error that says the most: what cargo names as the last cause, the first error of a compiler,
// or the first line.
fn reason(error: &str) -> &str {
    let mut lines = error.lines().map(str::trim).filter(|line| !line.is_empty());
    let is_error = |line: &&str| line.starts_with("error") || line.contains(" error: ");
    if error.contains("Caused by:") {
        lines.next_back().unwrap_or(error)
    } else {
        lines.clone().find(is_error).or(lines.next()).unwrap_or(error)
    }
}
