//! Counting the instructions of a child of this program.

use std::io::{ErrorKind, Write};
use std::process::{Command, Output, Stdio};

/// The first argument of a child.
pub const CHILD: &str = "--child";

/// What went wrong.
#[derive(Debug)]
pub struct Error(pub String);

/// What a child counted and what it said.
pub struct Counted {
    pub instructions: u64,
    pub said: String,
}

/// Instructions of a child that makes something ready and does some work, less those
/// of a child that makes the same ready and does less.
pub fn beyond(ready: &str, work: &str, less: &str, input: &[u8]) -> Result<Counted, Error> {
    let rest = count(ready, less, input)?.instructions;
    let mut counted = count(ready, work, input)?;
    counted.instructions = counted.instructions.saturating_sub(rest);
    Ok(counted)
}

/// All instructions of a child, from its start to its end.
fn count(ready: &str, work: &str, input: &[u8]) -> Result<Counted, Error> {
    let output = run(ready, work, input).map_err(|error| match error.kind() {
        ErrorKind::NotFound => Error(String::from(
            "valgrind is not installed: apt-get install valgrind",
        )),
        _ => Error(format!("valgrind does not run: {error}")),
    })?;
    let errors = String::from_utf8_lossy(&output.stderr);
    let collected = errors.lines().find_map(|line| {
        let (_, number) = line.split_once("Collected : ")?;
        number.trim().parse().ok()
    });
    match collected {
        Some(instructions) if output.status.success() => Ok(Counted {
            instructions,
            said: String::from_utf8_lossy(&output.stdout).into_owned(),
        }),
        _ => Err(Error(format!("counting {ready}, {work}: {errors}"))),
    }
}

/// Runs a child under callgrind, without an environment.
fn run(ready: &str, work: &str, input: &[u8]) -> std::io::Result<Output> {
    let mut child = Command::new("valgrind")
        .args(["--tool=callgrind", "--callgrind-out-file=/dev/null"])
        .arg(std::env::current_exe()?)
        .args([CHILD, ready, work])
        .env_clear()
        .stdin(Stdio::piped())
        .stdout(Stdio::piped())
        .stderr(Stdio::piped())
        .spawn()?;
    if let Some(mut stdin) = child.stdin.take() {
        stdin.write_all(input)?;
    }
    child.wait_with_output()
}
