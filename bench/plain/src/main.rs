//! A plain Rust program that answers the same lines as `revroute`. It exists only to compare times.
//!
//! - `plain run` settles a network by turning sink after sink on one thread.
//! - `plain run --workers N` turns sinks on a crew of N threads, and then finishes on one thread.
//! - `plain run --search` finds the settled counts by a search, and turns no node.
//! - `plain serve` answers each line as it arrives, by turns on one thread.
//! - `plain ask PROGRAM WORDS..` asks such a program in lock step, and prints its answers.

mod ask;
mod crew;
mod edit;
mod net;
mod request;
mod round;
mod session;
mod settle;
mod straight;
#[cfg(test)]
mod tests;

use session::{answer_as_they_come, answer_lines};
use settle::Method;
use std::env;
use std::io::{self, BufReader, BufWriter, Read, Write};

const MOST_BYTES: u64 = 16_777_216;
const ROOM: usize = 1 << 16;

fn main() -> io::Result<()> {
    let words: Vec<String> = env::args().skip(1).collect();
    match words.iter().map(String::as_str).collect::<Vec<_>>()[..] {
        ["run"] => run(Method::Turns),
        ["run", "--search"] => run(Method::Search),
        ["run", "--workers", number] => match number.parse() {
            Ok(workers @ 1..=16) => run(Method::Crew(workers)),
            _ => Err(io::Error::other("1 to 16 workers")),
        },
        ["serve"] => serve(),
        ["ask", program, ref words @ ..] => ask::ask(program, words),
        _ => Err(io::Error::other(
            "usage: plain run [--workers N | --search], plain serve, plain ask PROGRAM WORDS..",
        )),
    }
}

fn run(method: Method) -> io::Result<()> {
    let mut input = Vec::new();
    io::stdin()
        .lock()
        .take(MOST_BYTES + 1)
        .read_to_end(&mut input)?;
    if input.len() as u64 > MOST_BYTES {
        return Err(io::Error::other("input too long"));
    }
    let mut out = BufWriter::with_capacity(ROOM, io::stdout().lock());
    answer_lines(&input, method, &mut out)?;
    out.flush()
}

fn serve() -> io::Result<()> {
    let mut out = BufWriter::with_capacity(ROOM, io::stdout().lock());
    let mut input = BufReader::with_capacity(ROOM, io::stdin().lock());
    answer_as_they_come(&mut input, Method::Turns, &mut out)?;
    out.flush()
}
