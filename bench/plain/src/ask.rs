//! A client over pipes, in lock step: it sends a line only after it has read the answer to the one before.

use std::io::{self, BufRead, BufReader, BufWriter, Read, Write};
use std::process::{ChildStdin, ChildStdout, Command, Stdio};

/// Asks a program the lines of standard input, and prints its answers. No line may be blank.
pub fn ask(program: &str, words: &[&str]) -> io::Result<()> {
    let mut input = Vec::new();
    io::stdin().lock().read_to_end(&mut input)?;
    let mut service = Command::new(program)
        .args(words)
        .stdin(Stdio::piped())
        .stdout(Stdio::piped())
        .spawn()?;
    let (Some(into), Some(from)) = (service.stdin.take(), service.stdout.take()) else {
        return Err(io::Error::other("no pipe"));
    };
    in_lock_step(&input, into, BufReader::new(from))?;
    match service.wait()?.success() {
        true => Ok(()),
        false => Err(io::Error::other("the service failed")),
    }
}

fn in_lock_step(
    input: &[u8],
    mut into: ChildStdin,
    mut from: BufReader<ChildStdout>,
) -> io::Result<()> {
    let mut out = BufWriter::new(io::stdout().lock());
    let mut answer = Vec::new();
    for line in input.split_inclusive(|&byte| byte == b'\n') {
        into.write_all(line)?;
        answer.clear();
        if from.read_until(b'\n', &mut answer)? == 0 {
            return Err(io::Error::other("no answer"));
        }
        out.write_all(&answer)?;
    }
    out.flush()
}
