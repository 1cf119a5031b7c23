//! `compare_node COUNT SEED`: the proved box against the twin, on COUNT steps from
//! random records drawn from SEED. A step is one event on one record, taken with many
//! rooms.

use std::process::ExitCode;

use support::broken_records::{self, ANY, BROKEN};
use support::comparison::{self, Comparison, Different};
use support::counts::{Counts, Name};
use support::damage::DAMAGES;
use support::numbers::NUMBERS;
use support::random::Random;
use support::received_frames;
use support::records::{self, Record, GOOD};

mod append_cases;
mod cases_met;
mod park;
mod step_by_both;
mod steps;
mod vote_cases;

use step_by_both::{Difference, Event};
use steps::Rules;

struct NodeComparison {
    r: Random,
    counts: Counts,
    /// Steps taken, and how many there are to be.
    taken: u64,
    count: u64,
}

impl NodeComparison {
    /// Every event on the record, with so many frames drawn for it.
    fn all_events(
        &mut self,
        record: &Record,
        rules: Rules,
        frames: usize,
    ) -> Result<(), Box<Difference>> {
        let order = records::order(&mut self.r);
        for event in [
            Event::Timeout,
            Event::Prompt,
            Event::Order(order),
            Event::HandedOut,
        ] {
            self.step(event, record, rules)?;
        }
        for _ in 0..frames {
            let text = received_frames::frame(&mut self.r, record);
            self.step(Event::Receive(&text), record, rules)?;
        }
        let text = received_frames::misaddressed(&mut self.r, record);
        self.step(Event::Receive(&text), record, rules)?;
        let (name, text) = received_frames::damaged(&mut self.r, record);
        self.counts.add(name);
        self.step(Event::Receive(&text), record, rules)?;
        Ok(())
    }

    /// Starting, with a box and a mask that may be bad.
    fn start(&mut self) -> Result<(), Box<Difference>> {
        let r = &mut self.r;
        let (me, mask) = records::membership(r);
        let (me, mask) = match r.below(6) {
            0 => (r.next() as u8, mask as u8),
            1 => (me as u8, r.of(&[0, 0x7f, 0x80, 0xff])),
            2 => (me as u8, r.next() as u8),
            3 => (r.of(&[0, 8]), r.of(&[0x01, 0x7f, 0x80, 0xff])),
            _ => (me as u8, mask as u8),
        };
        let good = (1..=7).contains(&me) && mask < 0x80 && mask >> (me - 1) & 1 == 1;
        let rules = if good { Rules::Kept } else { Rules::Broken };
        let mut numbers = [0; NUMBERS];
        numbers.fill_with(|| r.next());
        let record = Record::with_any_log(numbers, r);
        self.step(Event::Start { me, mask }, &record, rules)?;
        Ok(())
    }

    /// A fresh box, half of the time alone.
    fn started_box(&mut self) -> Result<Option<Record>, Box<Difference>> {
        let r = &mut self.r;
        let (me, mask) = records::membership(r);
        let mask = if r.one_in(2) { 1 << (me - 1) } else { mask };
        let record = Record::with_any_log([0; NUMBERS], r);
        let event = Event::Start {
            me: me as u8,
            mask: mask as u8,
        };
        let step = self.step(event, &record, Rules::Kept)?;
        Ok(step.map(|step| step.next))
    }

    /// Events one after the other, from a start or from a good record.
    fn session(&mut self) -> Result<(), Box<Difference>> {
        self.counts.add("session");
        let first = match self.r.below(4) {
            0 => self.started_box()?,
            role => Some(GOOD[[2, 2, 1, 0][role]].1(&mut self.r)),
        };
        let Some(mut record) = first else {
            return Ok(());
        };
        for _ in 0..30 {
            let text = received_frames::frame(&mut self.r, &record);
            let event = match self.r.below(10) {
                0 => Event::Timeout,
                1 => Event::Prompt,
                2 => Event::HandedOut,
                3..=5 => Event::Order(records::order(&mut self.r)),
                _ => Event::Receive(&text),
            };
            if let Some(step) = self.step(event, &record, Rules::Kept)? {
                record = step.next;
            }
        }
        Ok(())
    }

    fn by_number(&mut self, number: u64) -> Result<(), Box<Difference>> {
        let turn = (number / 16) as usize;
        let broken = |turn: usize| (BROKEN[turn % BROKEN.len()], Rules::Broken);
        let ((name, make), rules) = match number % 16 {
            0 => return self.start(),
            1 => return self.session(),
            2 => return self.park(),
            3 => broken(2 * turn),
            4 => broken(2 * turn + 1),
            5 => {
                let place = turn % NUMBERS;
                self.counts.add_of("too_large", place as u64);
                let record = broken_records::too_large(&mut self.r, place);
                return self.all_events(&record, Rules::Broken, 2);
            }
            6 => (ANY[turn % ANY.len()], Rules::Unknown),
            7..=9 => (GOOD[0], Rules::Kept),
            10 | 11 => (GOOD[1], Rules::Kept),
            _ => (GOOD[2], Rules::Kept),
        };
        self.counts.add(name);
        let record = make(&mut self.r);
        let frames = if rules == Rules::Kept { 10 } else { 2 };
        self.all_events(&record, rules, frames)
    }
}

/// What a run has to reach: a case that no step reached was not compared.
fn wanted() -> Vec<Name> {
    let mut names: Vec<Name> = Vec::new();
    for (event, answers) in [
        ("start", &[0, 5, 12][..]),
        ("timeout", &[0, 5, 9, 12]),
        ("prompt", &[0, 3, 5, 12]),
        ("order", &[0, 3, 4, 5, 12, 13]),
        ("receive", &[0, 1, 2, 5, 6, 7, 8, 12]),
        ("handed_out", &[0, 12]),
        ("5_of_kind", &[1, 2, 3, 4]),
    ] {
        names.extend(answers.iter().map(|answer| (event, Some(*answer))));
    }
    let made = GOOD.iter().chain(&BROKEN).chain(&ANY);
    names.extend(made.map(|(name, _)| (*name, None)));
    names.extend((0..NUMBERS).map(|place| ("too_large", Some(place as u64))));
    names.extend(DAMAGES.map(|(name, _)| (name, None)));
    let others = ["empty", "head", "random_bytes", "joined", "session"];
    let plain = others.iter().chain(&steps::SHORT).chain(&park::WANTED);
    names.extend(plain.map(|name| (*name, None)));
    names.extend(cases_met::wanted());
    names
}

impl Comparison for NodeComparison {
    const NAME: &'static str = "node";

    fn compared(&self) -> u64 {
        self.taken
    }

    fn number(&mut self, seed: u64, number: u64) -> Result<(), Different> {
        self.r = Random::for_input(seed, number);
        self.by_number(number)
            .map_err(|difference| difference.print())
    }

    fn cases(&self) -> Vec<(&Counts, Vec<Name>)> {
        vec![(&self.counts, wanted())]
    }

    fn inputs(&self) -> String {
        format!("{} steps", self.taken)
    }
}

fn main() -> ExitCode {
    comparison::run("compare_node COUNT SEED", |count, seed, more| {
        more.is_empty().then(|| NodeComparison {
            r: Random::for_input(seed, 0),
            counts: Counts::default(),
            taken: 0,
            count,
        })
    })
}
