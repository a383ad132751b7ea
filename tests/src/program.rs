//! Runs the tool's programs and finds the repository's files.

use crate::refusal::Refusal;
use crate::replay::hex;
use std::ffi::OsStr;
use std::fs;
use std::io::{self, Write};
use std::path::{Path, PathBuf};
use std::process::{Command, Stdio};

/// A path below the repository's root.
pub fn in_repository(path: &str) -> PathBuf {
    Path::new(env!("CARGO_MANIFEST_DIR")).join("..").join(path)
}

/// The files of a folder with this extension, by name.
pub fn files(folder: &str, extension: &str) -> Vec<PathBuf> {
    let folder = in_repository(folder);
    let listed = fs::read_dir(&folder)
        .unwrap_or_else(|error| panic!("{}: {error}", folder.display()))
        .map(|entry| entry.map(|entry| entry.path()))
        .collect::<io::Result<Vec<_>>>();
    let mut paths = listed.unwrap_or_else(|error| panic!("{}: {error}", folder.display()));
    paths.retain(|path| path.extension() == Some(OsStr::new(extension)));
    paths.sort();
    paths
}

/// The bytes of a file.
pub fn bytes(path: &Path) -> Vec<u8> {
    fs::read(path).unwrap_or_else(|error| panic!("{}: {error}", path.display()))
}

/// What a program wrote to standard output, which need not be text, and to standard
/// error.
#[derive(Debug, PartialEq, Eq)]
pub struct Written<T = String> {
    pub output: T,
    pub errors: String,
}

impl Written<Vec<u8>> {
    /// What a program writes that answers with a file: the file, or the refusal's line
    /// to standard error and nothing else.
    pub fn of(answer: Result<Vec<u8>, Refusal>) -> Self {
        match answer {
            Ok(output) => Written {
                output,
                errors: String::new(),
            },
            Err(refusal) => Written {
                output: Vec::new(),
                errors: format!("{refusal}\n"),
            },
        }
    }

    fn told(&self) -> String {
        format!("{} and {:?}", hex(&self.output), self.errors)
    }
}

/// Runs one of the tool's programs on this input and gives what it printed. An
/// error tells why it could not be run or how it broke off.
pub fn run(name: &str, input: &[u8]) -> Result<String, String> {
    run_with(name, &[], input).map(|written| written.output)
}

/// The same with arguments, and with what went to standard error.
pub fn run_with(name: &str, arguments: &[&str], input: &[u8]) -> Result<Written, String> {
    let Written { output, errors } = run_bytes(name, arguments, input)?;
    let output = String::from_utf8(output).map_err(|error| format!("{name}: {error}"))?;
    Ok(Written { output, errors })
}

/// Runs a program whose output is no text; an error tells what it wrote instead of
/// what was expected.
pub fn compare(
    name: &str,
    arguments: &[&str],
    input: &[u8],
    expected: &Written<Vec<u8>>,
) -> Result<(), String> {
    let written = run_bytes(name, arguments, input)?;
    if written == *expected {
        return Ok(());
    }
    let [is, should] = [&written, expected].map(Written::told);
    Err(format!("wrote {is}, expected {should}"))
}

/// The same as [`run_with`] where standard output is no text.
pub fn run_bytes(name: &str, arguments: &[&str], input: &[u8]) -> Result<Written<Vec<u8>>, String> {
    let path = in_repository("crates").join(name).join("out").join(name);
    let told = |error: io::Error| format!("{}: {error}", path.display());
    let mut child = Command::new(&path)
        .args(arguments)
        .stdin(Stdio::piped())
        .stdout(Stdio::piped())
        .stderr(Stdio::piped())
        .spawn()
        .map_err(told)?;
    // What it reads is small enough for the pipe, so nothing waits for what it prints.
    let mut stdin = child.stdin.take().expect("the input is piped");
    match stdin.write_all(input) {
        Err(error) if error.kind() != io::ErrorKind::BrokenPipe => return Err(told(error)),
        _ => drop(stdin),
    }
    let output = child.wait_with_output().map_err(told)?;
    if output.status.code().is_none() {
        return Err(format!("{}: {}", path.display(), output.status));
    }
    Ok(Written {
        output: output.stdout,
        errors: String::from_utf8(output.stderr)
            .map_err(|error| format!("{}: {error}", path.display()))?,
    })
}
