//! Named tests and the running of their cases.

use crate::random::Rng;

/// Err tells what was wrong with a case.
pub type Verdict = Result<(), String>;

/// The number of cases that held, or the first one that did not.
pub type Outcome = Result<u64, String>;

pub struct Test {
    pub name: &'static str,
    pub run: fn(&Trial) -> Outcome,
}

pub struct Trial {
    pub name: &'static str,
    pub seed: u64,
    pub count: u64,
}

impl Trial {
    /// Runs a case with each of `cases` streams of numbers, at least one.
    pub fn cases(&self, cases: u64, mut case: impl FnMut(&mut Rng) -> Verdict) -> Outcome {
        let cases = cases.max(1);
        for number in 0..cases {
            let mut rng = Rng::stream(self.seed, self.name, number);
            case(&mut rng).map_err(|wrong| format!("case {number}: {wrong}"))?;
        }
        Ok(cases)
    }

    /// For fixed cases that need a few arbitrary numbers.
    pub fn rng(&self) -> Rng {
        Rng::stream(self.seed, self.name, 0)
    }
}

pub fn expect(what: &str, got: u64, wanted: u64) -> Verdict {
    if got == wanted {
        return Ok(());
    }
    Err(format!("{what} gave {}, wanted {}", told(got), told(wanted)))
}

/// A result as it is, or as refusal and place.
fn told(result: u64) -> String {
    match result >> 32 {
        0 => format!("{result}"),
        number => format!("refusal {number} at {}", result & 0xFFFF_FFFF),
    }
}
