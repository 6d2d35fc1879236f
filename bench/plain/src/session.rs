//! Answers request after request, as text.

use crate::net::Net;
use crate::edit::Refusal;
use crate::request::{read_line, Request};
use crate::round::{Hop, Round};
use crate::settle::Method;
use std::io::{self, BufRead, BufReader, Read, Write};

/// Answers each line of the input that is not blank.
pub fn answer_lines(input: &[u8], method: Method, out: &mut impl Write) -> io::Result<()> {
    let mut round = None;
    for line in input.split(|&byte| byte == b'\n') {
        answer_line(&mut round, line, method, out)?;
    }
    Ok(())
}

/// Answers each line as it arrives. Flushes when no complete line is left in the buffer.
pub fn answer_as_they_come<R: Read>(
    input: &mut BufReader<R>,
    method: Method,
    out: &mut impl Write,
) -> io::Result<()> {
    let (mut round, mut line) = (None, Vec::new());
    while input.read_until(b'\n', &mut line)? > 0 {
        let text = line.strip_suffix(b"\n").unwrap_or(&line);
        answer_line(&mut round, text, method, out)?;
        line.clear();
        if !input.buffer().contains(&b'\n') {
            out.flush()?;
        }
    }
    Ok(())
}

/// Answers a line that is not blank. It is given without its newline.
fn answer_line(
    round: &mut Option<Round>,
    line: &[u8],
    method: Method,
    out: &mut impl Write,
) -> io::Result<()> {
    if line.iter().all(|byte| b"\t\r ".contains(byte)) {
        return Ok(());
    }
    match read_line(line) {
        Ok(request) => answer(round, request, method, out)?,
        Err(refusal) => refused(refusal, out)?,
    }
    out.write_all(b"\n")
}

fn answer(
    round: &mut Option<Round>,
    request: Request,
    method: Method,
    out: &mut impl Write,
) -> io::Result<()> {
    match (request, round) {
        (Request::Network { nodes, dest, links }, round) => {
            let opened = Net::new(nodes, &links).and_then(|net| Round::open(net, dest, method));
            report(opened.map(|opened| &*round.insert(opened)), out)
        }
        (_, None) => refused(Refusal::NoNetwork, out),
        (Request::Edit(edit), Some(round)) => {
            report(round.edit(edit, method).map(|()| &*round), out)
        }
        (Request::Batch { edits }, Some(round)) => {
            report(round.batch(&edits, method).map(|()| &*round), out)
        }
        (Request::Destination { dest }, Some(round)) => {
            report(round.move_to(dest, method).map(|()| &*round), out)
        }
        (Request::Walk { x }, Some(round)) => walk(round, x, out),
        (Request::Links, Some(round)) => links(round, out),
        (Request::Counts, Some(round)) => counts(round, out),
        (Request::Hops, Some(round)) => hops(round, out),
    }
}

fn report(settled: Result<&Round, Refusal>, out: &mut impl Write) -> io::Result<()> {
    match settled {
        Ok(round) => write!(out, "turned {} cut {}", round.turned(), round.cut_off()),
        Err(refusal) => refused(refusal, out),
    }
}

fn refused(refusal: Refusal, out: &mut impl Write) -> io::Result<()> {
    write!(out, "refused {}", refusal as u32)
}

fn links(round: &Round, out: &mut impl Write) -> io::Result<()> {
    out.write_all(b"links")?;
    for (tail, head) in round.links() {
        write!(out, " {tail}>{head}")?;
    }
    Ok(())
}

fn counts(round: &Round, out: &mut impl Write) -> io::Result<()> {
    out.write_all(b"counts")?;
    for count in round.counts() {
        write!(out, " {count}")?;
    }
    Ok(())
}

fn hops(round: &Round, out: &mut impl Write) -> io::Result<()> {
    out.write_all(b"hops")?;
    for hop in round.hops() {
        match hop {
            Hop::Here => out.write_all(b" here")?,
            Hop::To(node) => write!(out, " {node}")?,
            Hop::CutOff => out.write_all(b" cut")?,
        }
    }
    Ok(())
}

/// The nodes on the route from `x` to the destination.
fn walk(round: &Round, x: u32, out: &mut impl Write) -> io::Result<()> {
    let Some(&hop) = round.hops().get(x as usize) else {
        return refused(Refusal::Range, out);
    };
    write!(out, "walk {x}")?;
    let mut hop = hop;
    while let Hop::To(node) = hop {
        write!(out, " {node}")?;
        hop = round.hops()[node as usize];
    }
    if hop == Hop::CutOff {
        out.write_all(b" cut")?;
    }
    Ok(())
}
