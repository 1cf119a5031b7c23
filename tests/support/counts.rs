//! Named cases, how often a run has met each, and those that it has to meet: a
//! case that was never reached was not compared.

use std::collections::BTreeMap;

/// A name, and a number where there are several of it.
pub type Name = (&'static str, Option<u64>);

#[derive(Default)]
pub struct Counts(BTreeMap<Name, u64>);

impl Counts {
    pub fn add(&mut self, name: &'static str) {
        *self.0.entry((name, None)).or_default() += 1;
    }

    pub fn add_of(&mut self, name: &'static str, number: u64) {
        *self.0.entry((name, Some(number))).or_default() += 1;
    }

    /// Those that hold.
    pub fn add_each(&mut self, cases: &[(bool, &'static str)]) {
        for (_, name) in cases.iter().filter(|(holds, _)| *holds) {
            self.add(name);
        }
    }

    pub fn times(&self, name: Name) -> u64 {
        self.0.get(&name).copied().unwrap_or(0)
    }

    /// Prints the counts; the first that was never reached is an error.
    pub fn report(&self, wanted: &[Name]) -> Result<(), String> {
        let times = |name: &Name| format!("{} {}", spelled(*name), self.times(*name));
        let line: Vec<String> = wanted.iter().map(times).collect();
        println!("{}", line.join(", "));
        match wanted.iter().find(|name| self.times(**name) == 0) {
            Some(name) => Err(spelled(*name)),
            None => Ok(()),
        }
    }
}

fn spelled((name, number): Name) -> String {
    match number {
        Some(number) => format!("{name}_{number}"),
        None => name.into(),
    }
}
