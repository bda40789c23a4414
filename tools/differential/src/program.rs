//! A program that speaks the line protocol, over pipes.

use std::io::{self, BufRead, BufReader, Write};
use std::process::{Child, ChildStdin, ChildStdout, Command, Stdio};
use std::thread;

pub struct Program {
    path: String,
    child: Child,
    input: Option<ChildStdin>,
    output: BufReader<ChildStdout>,
}

impl Program {
    pub fn start(path: &str) -> io::Result<Program> {
        let mut child = Command::new(path).stdin(Stdio::piped()).stdout(Stdio::piped()).spawn()?;
        let input = child.stdin.take();
        let output = child.stdout.take().ok_or_else(|| io::Error::other("no output"))?;
        Ok(Program {
            path: path.to_owned(),
            child,
            input,
            output: BufReader::with_capacity(1 << 16, output),
        })
    }

    /// Sends the lines and takes as many answers. Lines are sent by a thread of their own, so that
    /// neither side waits for the other with a full pipe.
    pub fn ask(&mut self, lines: &str, answers: usize) -> io::Result<Vec<String>> {
        let input = self.input.as_mut().ok_or_else(|| io::Error::other("no input"))?;
        let output = &mut self.output;
        thread::scope(|scope| {
            let sender =
                scope.spawn(move || input.write_all(lines.as_bytes()).and_then(|()| input.flush()));
            let taken: io::Result<Vec<String>> = (0..answers).map(|_| answer(output)).collect();
            let sent =
                sender.join().unwrap_or_else(|_| Err(io::Error::other("the sender stopped")));
            sent.and(taken)
        })
    }

    /// Starts anew, for a program that ended in the middle of a batch.
    pub fn restart(&mut self) -> io::Result<()> {
        let path = self.path.clone();
        *self = Program::start(&path)?;
        Ok(())
    }
}

fn answer(output: &mut impl BufRead) -> io::Result<String> {
    let mut line = String::new();
    if output.read_line(&mut line)? == 0 {
        return Err(io::Error::from(io::ErrorKind::UnexpectedEof));
    }
    line.truncate(line.trim_end().len());
    Ok(line)
}

impl Drop for Program {
    fn drop(&mut self) {
        // The end of its input ends the program.
        self.input = None;
        let _ = self.child.wait();
    }
}
