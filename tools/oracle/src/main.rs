//! The Rust crate protobuf 3.7.2 under the line protocol of the program `replay`, as far as it can
//! answer.

mod descriptors;
mod hex;
mod image;
mod reading;
mod state;
mod table;

use std::io::{self, BufRead, BufReader, BufWriter, Write};
use std::thread;

/// The crate's reader and printers call themselves once a level and know no limit of depth.
const STACK_BYTES: usize = 1 << 30;
const BUFFER_BYTES: usize = 1 << 16;

fn serve() -> io::Result<()> {
    let mut state = state::State::default();
    let mut input = BufReader::with_capacity(BUFFER_BYTES, io::stdin());
    let mut output = BufWriter::with_capacity(BUFFER_BYTES, io::stdout().lock());
    let mut line = String::new();
    while input.read_line(&mut line)? > 0 {
        let request = line.trim_end_matches(['\n', '\r']);
        if !request.is_empty() && !request.starts_with('#') {
            if let Some(answer) = state.request(request) {
                writeln!(output, "{answer}")?;
            }
        }
        // A caller that waits for each answer gets it; one that sends ahead gets them in blocks.
        if input.buffer().is_empty() {
            output.flush()?;
        }
        line.clear();
    }
    output.flush()
}

fn main() -> io::Result<()> {
    let reader = thread::Builder::new().stack_size(STACK_BYTES).spawn(serve)?;
    reader.join().expect("the reader's thread ended by itself")
}
