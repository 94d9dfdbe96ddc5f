//! The log program without proofs: a log on standard input, a line for each record on standard output.
//!
//! It is what docs/BENCH.md measures the proved program beside. The rules it follows are those of document 01, with
//! Papers 2 to 5 of document 02.

#![forbid(unsafe_code)]

mod call;
mod decision;
mod lines;
mod numbers;
mod record;
mod rules;
mod sets;
mod state;

use std::env;
use std::fs::File;
use std::io::{self, Read, Write};
use std::mem;
use std::os::unix::io::AsFd;
use std::process::ExitCode;

use decision::Monitor;
use lines::Lines;
use record::Log;

const LOG_LIMIT: usize = 65_536;

/// Answers a log on a fresh monitor.
fn answer_log(log: &[u8], output: &mut impl Write) -> io::Result<()> {
    let mut monitor = Monitor::new();
    let mut lines = Lines::new();
    for record in Log::new(log) {
        lines.push(monitor.answer(record));
        if lines.is_full() {
            output.write_all(lines.take())?;
        }
    }
    output.write_all(lines.take())
}

/// A standard stream without the library's own buffer.
fn unbuffered(stream: impl AsFd) -> io::Result<File> {
    Ok(File::from(stream.as_fd().try_clone_to_owned()?))
}

/// Reads standard input and writes the answers.
fn run() -> io::Result<()> {
    let mut log = Vec::with_capacity(LOG_LIMIT + 1);
    unbuffered(io::stdin())?.take(LOG_LIMIT as u64 + 1).read_to_end(&mut log)?;
    let mut output = unbuffered(io::stdout())?;
    if log.len() > LOG_LIMIT {
        output.write_all(b"log too long\n")
    } else {
        answer_log(&log, &mut output)
    }
}

fn main() -> ExitCode {
    let result = if env::args_os().any(|argument| argument == "--size") {
        writeln!(io::stdout(), "{}", mem::size_of::<Monitor>())
    } else {
        run()
    };
    match result {
        Ok(()) => ExitCode::SUCCESS,
        Err(error) => {
            let _ = writeln!(io::stderr(), "baseline: {error}");
            ExitCode::FAILURE
        }
    }
}
