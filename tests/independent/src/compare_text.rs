//! The program netprint, text by text.

use crate::bound::judge_all;
use crate::compare::hex;
use crate::counts::{Counts, OF_TEXTS};
use crate::generate::{any_record, everywhere};
use crate::random::Random;
use crate::record::told_kind;
use crate::samples::{circle_record, patch_record, rect_record};
use crate::text::{coordinates, outcome, write, LONGEST_INPUT};
use std::io::Write;
use std::process::{Command, Stdio};

/// The records of a run: every damage of three samples, in turn with generated ones.
pub fn records(count: usize, seed: u64) -> Vec<Vec<u8>> {
    let mut random = Random::new(seed);
    let samples = [circle_record(), patch_record(), rect_record()];
    let mut sweep: Vec<Vec<u8>> = vec![Vec::new()];
    sweep.extend_from_slice(&samples);
    samples.iter().for_each(|sample| sweep.extend(everywhere(sample)));
    let mut next = sweep.into_iter();
    let mut one = |number: usize| match number % 3 {
        0 => next.next().unwrap_or_else(|| any_record(&mut random)),
        _ => any_record(&mut random),
    };
    (0..count).map(&mut one).collect()
}

/// Runs the program on each record over standard input.
pub fn compare_text(program: &str, count: usize, seed: u64) -> Result<Counts, String> {
    let mut counts = Counts::default();
    for (number, bytes) in records(count, seed).iter().enumerate() {
        let expected = outcome(&bytes[..bytes.len().min(LONGEST_INPUT)]);
        counts.outcome(told_kind(bytes), &expected);
        let given = said(program, bytes).map_err(|error| format!("{program}: {error}"))?;
        if let (Some(projected), Some(bits)) = (expected.projected(), coordinates(&given)) {
            let told = |what| format!("seed {seed}, record {number}: {what}\nrecord {}", hex(bytes));
            counts.judged(OF_TEXTS, judge_all(projected, bits).map_err(told)?);
        }
        let expected = write(&expected);
        if given != expected.as_bytes() {
            let given = String::from_utf8_lossy(&given);
            return Err(format!("seed {seed}, record {number}: {}\nsaid\n{given}\nexpected\n{expected}", hex(bytes)));
        }
    }
    Ok(counts)
}

/// The program's standard output. It may stop reading early, so a failed write is
/// no failure.
fn said(program: &str, input: &[u8]) -> std::io::Result<Vec<u8>> {
    let mut words = program.split_whitespace();
    let mut command = Command::new(words.next().unwrap_or(program));
    let mut child = command.args(words).stdin(Stdio::piped()).stdout(Stdio::piped()).spawn()?;
    if let Some(mut stdin) = child.stdin.take() {
        let _ = stdin.write_all(input);
    }
    Ok(child.wait_with_output()?.stdout)
}
