//! Holds a program's answers to the crate's, line by line, while the list of calls is made.

use crate::generate;
use crate::oracle::Oracle;
use std::io::{self, BufRead, BufReader, Write};
use std::process::{ChildStdin, Command, Stdio};
use std::sync::mpsc::{self, Sender};
use std::thread;

/// How many lines go to the program at a time.
const BATCH: usize = 4096;

/// How many differences are printed.
const SHOWN: usize = 10;

/// Whether the program answers every call of a list as the crate does.
pub fn run(program: &str, seed: u64, calls: usize) -> io::Result<bool> {
    let mut child = Command::new(program)
        .stdin(Stdio::piped())
        .stdout(Stdio::piped())
        .spawn()?;
    let input = child.stdin.take().expect("the input is a pipe");
    let mut answers = BufReader::new(child.stdout.take().expect("the output is a pipe")).lines();
    let (sender, receiver) = mpsc::channel();
    let feeder = thread::spawn(move || feed(input, sender, seed, calls));

    let mut oracle = Oracle::new();
    let mut compared = 0;
    let mut differences = 0;
    for (place, line) in receiver.into_iter().flatten().enumerate() {
        let Some(answer) = oracle.answer(&line) else {
            continue;
        };
        let told = answers.next().transpose()?;
        let Some(told) = told else {
            differences += 1;
            println!("line {}: {line}\n  the program has ended", place + 1);
            break;
        };
        compared += 1;
        if told != format!("{line} -> {answer}") {
            differences += 1;
            if differences <= SHOWN {
                println!(
                    "line {}: {line}\n  crate:   {answer}\n  program: {told}",
                    place + 1
                );
            }
        }
    }
    let more = answers.count();
    if more > 0 {
        differences += more;
        println!("the program has {more} lines more than the crate");
    }
    // The program may have stopped reading; it is its answers that count.
    let _ = feeder.join().expect("the feeder does not panic");
    let status = child.wait()?;
    if !status.success() {
        differences += 1;
        println!("the program ended with {status}");
    }
    println!("{compared} calls compared, {differences} differences, seed {seed}");
    Ok(differences == 0)
}

/// Sends each batch on before the program gets it: whoever waits for its answers then knows its calls.
fn feed(
    mut input: ChildStdin,
    sender: Sender<Vec<String>>,
    seed: u64,
    calls: usize,
) -> io::Result<()> {
    let mut lines = generate::list(seed, calls);
    loop {
        let batch: Vec<String> = lines.by_ref().take(BATCH).collect();
        if batch.is_empty() {
            return Ok(());
        }
        let text = batch.join("\n") + "\n";
        if sender.send(batch).is_err() {
            return Ok(());
        }
        input.write_all(text.as_bytes())?;
    }
}
