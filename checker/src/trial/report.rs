//! The count of what passed and failed, and of the answers that were met.

use std::collections::BTreeMap;
use std::process::ExitCode;
use std::time::Instant;

/// Faults beyond this many are counted, not printed.
const FAULTS_PRINTED: u64 = 12;

/// What can be met: for each call or line its answers and refusals.
pub type Outcomes = [(&'static str, &'static [&'static str])];

/// What the trials have found so far.
#[derive(Debug, Default)]
pub struct Report {
    passed: u64,
    failed: u64,
    compared: u64,
    met: BTreeMap<(&'static str, String), u64>,
}

impl Report {
    /// Counts one check, and prints the fault if it failed.
    pub fn check(&mut self, good: bool, fault: impl FnOnce() -> String) {
        if good {
            self.passed += 1;
            return;
        }
        self.failed += 1;
        if self.failed <= FAULTS_PRINTED {
            println!("FAULT: {}", fault());
        }
    }

    /// Counts calls or lines that were compared with the model.
    pub fn count(&mut self, compared: u64) {
        self.compared += compared;
    }

    /// Notes that this outcome was met.
    pub fn note(&mut self, name: &'static str, outcome: String) {
        *self.met.entry((name, outcome)).or_default() += 1;
    }

    /// How many calls or lines were compared.
    pub fn compared(&self) -> u64 {
        self.compared
    }

    /// How many checks failed.
    pub fn failed(&self) -> u64 {
        self.failed
    }

    /// Does one part of the trials and says how long it took.
    pub fn part(&mut self, name: &str, trials: impl FnOnce(&mut Report)) {
        let (start, before) = (Instant::now(), self.compared);
        trials(self);
        let seconds = start.elapsed().as_secs_f64();
        let (compared, so_far) = (self.compared - before, self.summary());
        println!("{name}: {compared} compared, {seconds:.1} s; so far {so_far}");
    }

    /// Fails for each of these outcomes that was not met.
    pub fn check_every_outcome_met(&mut self, outcomes: &Outcomes) {
        for &(name, outcomes) in outcomes {
            for outcome in outcomes {
                let met = self.met.contains_key(&(name, outcome.to_string()));
                self.check(met, || format!("no {name} has met {outcome}"));
            }
        }
    }

    /// How often each of these outcomes was met, a line for each call.
    pub fn outcomes(&self, outcomes: &Outcomes) -> String {
        let mut lines = String::new();
        for &(name, outcomes) in outcomes {
            lines += &format!("  {name:13}");
            for outcome in outcomes {
                let times = self.met.get(&(name, outcome.to_string())).unwrap_or(&0);
                lines += &format!(" {outcome}: {times};");
            }
            lines += "\n";
        }
        lines
    }

    /// "N passed, N failed".
    pub fn summary(&self) -> String {
        format!("{} passed, {} failed", self.passed, self.failed)
    }

    /// Ends the trials: every outcome must have been met. Prints what was found
    /// and gives the exit status.
    pub fn close(&mut self, name: &str, compared: &str, outcomes: &Outcomes) -> ExitCode {
        self.check_every_outcome_met(outcomes);
        print!("answers met:\n{}", self.outcomes(outcomes));
        println!("{} {compared} compared with the model", self.compared);
        println!("{name}: {}", self.summary());
        match self.failed {
            0 => ExitCode::SUCCESS,
            _ => ExitCode::FAILURE,
        }
    }
}
