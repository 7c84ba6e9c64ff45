//! A program run with arguments and standard input.

use std::io::{ErrorKind, Write};
use std::process::{Command, Stdio};

/// What it writes to standard output. It may leave the rest of its input unread; one that is broken off is an error.
pub fn output_of(path: &str, arguments: &[String], input: &[u8]) -> Result<String, String> {
    let failed = |error: std::io::Error| format!("{path}: {error}");
    let mut child =
        Command::new(path).args(arguments).stdin(Stdio::piped()).stdout(Stdio::piped()).spawn().map_err(failed)?;
    // The output is a line or two, which no pipe holds up while the input is written. The pipe is closed behind it.
    let sent = child.stdin.take().map_or(Ok(()), |mut stdin| stdin.write_all(input));
    let output = child.wait_with_output().map_err(failed)?;
    match sent {
        Err(error) if error.kind() != ErrorKind::BrokenPipe => return Err(failed(error)),
        _ => {}
    }
    if output.status.code().is_none() {
        return Err(format!("{path}: {}", output.status));
    }
    String::from_utf8(output.stdout).map_err(|_| format!("{path} writes what is no text"))
}
