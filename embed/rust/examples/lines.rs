//! Answers the lines of standard input one by one, as `revroute run` does.

use revroute::Session;
use std::error::Error;
use std::io::{self, BufWriter, Read, Write};

fn main() -> Result<(), Box<dyn Error>> {
    let mut input = Vec::new();
    io::stdin().lock().read_to_end(&mut input)?;
    let mut session = Session::new();
    let mut out = BufWriter::new(io::stdout().lock());
    for line in input.split(|&byte| byte == b'\n') {
        if let Some(text) = session.answer(line)? {
            out.write_all(text.as_bytes())?;
            out.write_all(b"\n")?;
        }
    }
    out.flush()?;
    Ok(())
}
