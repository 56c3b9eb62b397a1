//! How a run ends: the lines that it prints, and whether it failed.

use std::process::ExitCode;
use std::time::Instant;

/// What a run without a disagreement tells.
#[derive(Clone, Debug, PartialEq, Eq)]
pub struct Closing {
    pub calls: u64,
    pub lines: String,
    /// What should have occurred and never did.
    pub missing: Vec<String>,
}

impl Closing {
    /// This run and the next one as one.
    pub fn and(self, next: Closing) -> Closing {
        Closing {
            calls: self.calls + next.calls,
            lines: format!("{}\n{}", self.lines, next.lines),
            missing: [self.missing, next.missing].concat(),
        }
    }
}

/// Prints it. A disagreement fails, and so does anything that never occurred.
pub fn close(result: Result<Closing, String>, started: Instant) -> ExitCode {
    let closing = match result {
        Ok(closing) => closing,
        Err(what) => {
            println!("DISAGREEMENT: {what}");
            return ExitCode::FAILURE;
        }
    };
    let seconds = started.elapsed().as_secs_f64();
    let rate = closing.calls as f64 / seconds.max(1e-9);
    println!("{}\n{seconds:.1} s, {rate:.0} calls a second; disagreements 0", closing.lines);
    if closing.missing.is_empty() {
        return ExitCode::SUCCESS;
    }
    println!("NEVER OCCURRED: {}", closing.missing.join(", "));
    ExitCode::FAILURE
}
