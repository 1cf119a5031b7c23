//! The frame of a comparison, `PROGRAM COUNT SEED`: inputs by number until COUNT are
//! compared. What belongs to one number depends on the seed and that number only, so
//! a run repeats exactly, and a difference is found again by its number.

use std::process::ExitCode;

use crate::counts::{Counts, Name};

pub trait Comparison {
    /// The first word of its last line.
    const NAME: &'static str;

    /// Compared so far, in what COUNT counts.
    fn compared(&self) -> u64;

    /// Takes everything of one number. What differs has been printed where this is
    /// an error.
    fn number(&mut self, seed: u64, number: u64) -> Result<(), Different>;

    /// The cases met, with those that a run has to meet.
    fn cases(&self) -> Vec<(&Counts, Vec<Name>)>;

    /// What was compared, in words: so many of this and that.
    fn inputs(&self) -> String;
}

/// The two sides differ, or agree on what is wrong, and it was printed.
pub struct Different;

/// Takes the numbers one after the other; gives the last line.
fn compare<C: Comparison>(comparison: &mut C, count: u64, seed: u64) -> Result<String, String> {
    let mut number = 0;
    while comparison.compared() < count {
        if let Err(Different) = comparison.number(seed, number) {
            return Err(format!("differs: seed {seed}, number {number}"));
        }
        number += 1;
    }
    let inputs = comparison.inputs();
    for (counts, wanted) in comparison.cases() {
        if let Err(name) = counts.report(&wanted) {
            return Err(format!("{name} was never reached ({inputs}, seed {seed})"));
        }
    }
    Ok(format!("{inputs} agree (seed {seed})"))
}

/// The whole of a comparison's `main`. `usage` are the words of the command line;
/// `make` gets count, seed and the words after them, which may be wrong ones.
pub fn run<C: Comparison>(
    usage: &str,
    make: impl FnOnce(u64, u64, &[String]) -> Option<C>,
) -> ExitCode {
    let words: Vec<String> = std::env::args().skip(1).collect();
    let numbers: Vec<u64> = words.iter().map_while(|word| word.parse().ok()).collect();
    let made = match numbers[..] {
        [count, seed] => make(count, seed, &words[2..]).map(|made| (count, seed, made)),
        _ => None,
    };
    let Some((count, seed, mut comparison)) = made else {
        eprintln!("usage: {usage}");
        return ExitCode::from(2);
    };
    match compare(&mut comparison, count, seed) {
        Ok(line) => {
            println!("{}: {line}", C::NAME);
            ExitCode::SUCCESS
        }
        Err(line) => {
            println!("{}: {line}", C::NAME);
            ExitCode::FAILURE
        }
    }
}
