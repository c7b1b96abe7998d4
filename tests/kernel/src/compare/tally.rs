//! Counts of passed and failed cases, and of the refusals that the cases called for.

use std::collections::BTreeMap;

/// No more failures than this are described.
const DESCRIBED: u64 = 12;

#[derive(Default)]
pub struct Tally {
    pub passed: u64,
    pub failed: u64,
    /// How often each refusal was right; 0 stands for acceptance.
    pub refusals: BTreeMap<u32, u64>,
}

impl Tally {
    /// Counts one case; a problem is described together with the call.
    pub fn judge(&mut self, refusal: u32, problem: Option<String>, call: impl FnOnce() -> String) {
        *self.refusals.entry(refusal).or_default() += 1;
        let Some(problem) = problem else {
            self.passed += 1;
            return;
        };
        self.failed += 1;
        if self.failed <= DESCRIBED {
            println!("FAILED: the kernel {problem}\n  in {}", call());
        }
    }

    /// One line: what was called for, and how often.
    pub fn refusal_line(&self) -> String {
        let counts = self.refusals.iter().map(|(&refusal, count)| match refusal {
            0 => format!("accepted {count}"),
            _ => format!("refusal {refusal}: {count}"),
        });
        counts.collect::<Vec<String>>().join(", ")
    }
}
