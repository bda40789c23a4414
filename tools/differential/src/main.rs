//! The real crate and a program that speaks the same line protocol, asked the same things and
//! compared.

mod answers;
mod compare;
mod entries;
mod escapes;
mod figures;
mod generate;
mod hex;
mod judge;
mod options;
mod places;
mod printed;
mod program;
mod random;
mod requests;
mod rules;
mod run;
mod sample;
mod schema;
mod setting;
mod show;
mod shrink;
mod tokens;
mod translate;

use std::io;
use std::process::ExitCode;

use judge::Judge;
use options::{options, Options, USAGE};
use program::Program;

fn serve(options: &Options) -> io::Result<bool> {
    let mut judge = Judge {
        oracle: Program::start(&options.oracle)?,
        peer: Program::start(&options.peer)?,
        rules: options.rules.clone(),
    };
    match options.mode.as_str() {
        "run" => run::run(&mut judge, options),
        "entries" => entries::entries(&mut judge, options.page.as_deref()),
        "sample" => sample::sample(&mut judge, options),
        _ => Err(io::Error::other(USAGE)),
    }
}

fn main() -> ExitCode {
    let arguments: Vec<String> = std::env::args().skip(1).collect();
    let result = options(&arguments).map_err(io::Error::other).and_then(|options| serve(&options));
    match result {
        Ok(true) => ExitCode::SUCCESS,
        Ok(false) => ExitCode::from(1),
        Err(error) => {
            eprintln!("{error}");
            ExitCode::from(2)
        }
    }
}
