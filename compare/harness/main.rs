//! Answers calls on masks with the Rust crate, makes lists of such calls, and compares another program's answers with
//! the crate's. BIT_SET_SRC, when this is built, is the folder that holds the crate's bit_set.rs and idx.rs.

mod calls;
mod generate;
mod oracle;
mod random;
mod sets;
mod shim;
mod versus;

#[allow(dead_code)]
mod idx {
    include!(concat!(env!("BIT_SET_SRC"), "/idx.rs"));
}

#[allow(dead_code)]
mod bit_set {
    include!(concat!(env!("BIT_SET_SRC"), "/bit_set.rs"));

    pub mod access;
}

use idx::Idx;
use oracle::Oracle;
use shim::IndexVec;
use shim::static_assert_size;
use std::io::{self, BufRead, BufWriter, Write};
use std::process::ExitCode;

const USAGE: &str =
    "usage: harness generate SEED CALLS | sample | answer | versus PROGRAM SEED CALLS";

fn main() -> ExitCode {
    // The crate panics where a call is refused, so a panic is an answer here.
    std::panic::set_hook(Box::new(|_| ()));
    let args: Vec<String> = std::env::args().skip(1).collect();
    let args: Vec<&str> = args.iter().map(String::as_str).collect();
    let done = match args[..] {
        ["generate", seed, calls] => {
            numbers(seed, calls).map(|(s, c)| print_calls(generate::list(s, c)))
        }
        ["sample"] => Some(print_calls(generate::sample())),
        ["answer"] => Some(answer_input()),
        ["versus", program, seed, calls] => {
            numbers(seed, calls).map(|(s, c)| versus::run(program, s, c))
        }
        _ => None,
    };
    match done {
        Some(Ok(true)) => ExitCode::SUCCESS,
        Some(Ok(false)) => ExitCode::from(1),
        Some(Err(e)) => {
            eprintln!("harness: {e}");
            ExitCode::from(2)
        }
        None => {
            eprintln!("{USAGE}");
            ExitCode::from(2)
        }
    }
}

fn numbers(seed: &str, calls: &str) -> Option<(u64, usize)> {
    Some((seed.parse().ok()?, calls.parse().ok()?))
}

fn print_calls(lines: impl Iterator<Item = String>) -> io::Result<bool> {
    let mut out = BufWriter::new(io::stdout().lock());
    for line in lines {
        writeln!(out, "{line}")?;
    }
    out.flush()?;
    Ok(true)
}

fn answer_input() -> io::Result<bool> {
    let mut oracle = Oracle::new();
    let mut out = BufWriter::new(io::stdout().lock());
    for line in io::stdin().lock().lines() {
        let line = line?;
        if let Some(answer) = oracle.answer(&line) {
            writeln!(out, "{line} -> {answer}")?;
        }
    }
    out.flush()?;
    Ok(true)
}
