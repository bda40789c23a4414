//! A model of documents 01 and 02 (§1), read plainly: requests of the line protocol on standard input,
//! answers on standard output.

mod carry;
mod lexer;
mod live;
mod parse;
mod print;
mod protocol;
mod refusal;
mod required;
mod schema;
mod strings;
mod table;

#[cfg(test)]
mod tests;

use protocol::State;
use std::io::{self, BufRead, BufReader, BufWriter, Write};

const BUFFER_BYTES: usize = 1 << 16;

fn main() -> io::Result<()> {
    let mut input = BufReader::with_capacity(BUFFER_BYTES, io::stdin().lock());
    let mut output = BufWriter::with_capacity(BUFFER_BYTES, io::stdout().lock());
    let mut state = State::default();
    let mut line = Vec::new();
    let mut number = 0;
    loop {
        line.clear();
        if input.read_until(b'\n', &mut line)? == 0 {
            return output.flush();
        }
        number += 1;
        if line.last() == Some(&b'\n') {
            line.pop();
        }
        if let Some(answer) = state.line(number, &line) {
            writeln!(output, "{answer}")?;
        }
        // One who asks and waits gets the answer; one who sends a file isn't slowed by it.
        if input.buffer().is_empty() {
            output.flush()?;
        }
    }
}
