//! Commands of the independent implementation; see README.md.

use independent::closing::close;
use independent::compare::{compare_calls, hex};
use independent::compare_text::{compare_text, records};
use independent::counts::{OF_A_LIBRARY, OF_A_PROGRAM};
use independent::laws::run_laws;
use independent::library::Model;
use independent::selftest::selftest;
use independent::text::{text, LONGEST_INPUT};
use std::io::{Read, Write};
use std::process::ExitCode;
use std::time::Instant;

const USAGE: &str = "independent netprint < RECORD
independent records COUNT SEED
independent compare-text PROGRAM COUNT SEED
independent selftest [LISTS SEED]
independent counts [LISTS SEED]
independent laws [NETS SEED]";

fn main() -> ExitCode {
    let words: Vec<String> = std::env::args().skip(1).collect();
    let started = Instant::now();
    let number = |place: usize, otherwise: u64| words.get(place).map_or(Some(otherwise), |word| word.parse().ok());
    match words.first().map(String::as_str) {
        Some("netprint") => netprint(),
        Some("records") => match (number(1, 100), number(2, 1)) {
            (Some(count), Some(seed)) => print_records(count as usize, seed),
            _ => usage(),
        },
        Some("compare-text") => match (words.get(1), number(2, 1000), number(3, 1)) {
            (Some(program), Some(count), Some(seed)) => {
                close(compare_text(program, count as usize, seed).map(|counts| counts.closing(OF_A_PROGRAM)), started)
            }
            _ => usage(),
        },
        Some("selftest") => match (number(1, 2000), number(2, 1)) {
            (Some(lists), Some(seed)) => close(selftest(lists as usize, seed), started),
            _ => usage(),
        },
        Some("counts") => match (number(1, 4000), number(2, 1)) {
            (Some(lists), Some(seed)) => {
                close(compare_calls(&mut Model, lists as usize, seed).map(|counts| counts.closing(OF_A_LIBRARY)), started)
            }
            _ => usage(),
        },
        Some("laws") => match (number(1, 20000), number(2, 1)) {
            (Some(nets), Some(seed)) => close(run_laws(&mut Model, nets as usize, seed).map(|counts| counts.closing()), started),
            _ => usage(),
        },
        _ => usage(),
    }
}

fn usage() -> ExitCode {
    eprintln!("{USAGE}");
    ExitCode::from(2)
}

/// The text for standard input, of which at most 2048 bytes are read.
fn netprint() -> ExitCode {
    let mut bytes = Vec::new();
    let read = std::io::stdin().take(LONGEST_INPUT as u64).read_to_end(&mut bytes);
    let written = read.and_then(|_| std::io::stdout().write_all(text(&bytes).as_bytes()));
    if written.is_ok() {
        ExitCode::SUCCESS
    } else {
        ExitCode::FAILURE
    }
}

/// One generated record per line, in hex, with its text after a tab.
fn print_records(count: usize, seed: u64) -> ExitCode {
    let mut out = std::io::stdout().lock();
    for bytes in records(count, seed) {
        let line = text(&bytes[..bytes.len().min(LONGEST_INPUT)]).replace('\n', "\\n");
        if writeln!(out, "{}\t{line}", hex(&bytes)).is_err() {
            return ExitCode::FAILURE;
        }
    }
    ExitCode::SUCCESS
}
