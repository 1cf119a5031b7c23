//! `compare_frames COUNT SEED`: the proved frame reader and writer against the
//! twin, on COUNT inputs drawn from SEED, in both directions.

use std::process::ExitCode;

use support::comparison::{self, Comparison, Different};
use support::counts::{Counts, Name};
use support::damage::{self, Damage, DAMAGES};
use support::random::Random;

mod both_ways;
mod drawn_fields;
mod drawn_texts;

use both_ways::{compare_bytes, compare_fields, Difference};
use drawn_fields::{junk, limits_passed, one_broken, too_large, unused_filled, valid, Fields};
use drawn_texts::{joined, likely_digits, random_digits, valid_text};

#[derive(Clone, Copy)]
enum Family {
    OfFields(fn(&mut Random) -> Fields),
    OfBytes(fn(&mut Random) -> Vec<u8>),
    Damaged(Damage),
}

use Family::{Damaged, OfBytes, OfFields};

/// Beside these, one for each damage to a valid text.
const MADE: [(&str, Family); 11] = [
    ("valid", OfFields(valid)),
    ("one_broken", OfFields(one_broken)),
    ("limits_passed", OfFields(limits_passed)),
    ("too_large", OfFields(too_large)),
    ("unused_filled", OfFields(unused_filled)),
    ("junk", OfFields(junk)),
    ("whole", OfBytes(valid_text)),
    ("joined", OfBytes(joined)),
    ("random_bytes", OfBytes(damage::random_bytes)),
    ("random_digits", OfBytes(random_digits)),
    ("likely_digits", OfBytes(likely_digits)),
];

const FAMILIES: usize = MADE.len() + DAMAGES.len();

fn family(place: usize) -> (&'static str, Family) {
    match place.checked_sub(MADE.len()) {
        None => MADE[place],
        Some(place) => (DAMAGES[place].0, Damaged(DAMAGES[place].1)),
    }
}

struct FrameComparison {
    counts: Counts,
    inputs: u64,
}

impl FrameComparison {
    fn compare(&mut self, r: &mut Random, family: Family) -> Result<(), Difference> {
        match family {
            OfFields(make) => {
                let f = make(r);
                compare_fields(&f, r, &mut self.counts)
            }
            OfBytes(make) => {
                let bytes = make(r);
                compare_bytes(&bytes, r, &mut self.counts)
            }
            Damaged(damage) => {
                let text = valid_text(r);
                compare_bytes(&damage(r, text), r, &mut self.counts)
            }
        }
    }
}

/// What a run has to reach: a case that no input reached was not compared.
fn wanted() -> Vec<Name> {
    let families = (0..FAMILIES).map(|place| (family(place).0, None));
    let mut names: Vec<Name> = families.collect();
    names.extend((1..=4).map(|kind| ("read_kind", Some(kind))));
    names.push(("read_no_frame", None));
    names.extend([0, 1, 5].map(|answer| ("write", Some(answer))));
    names
}

impl Comparison for FrameComparison {
    const NAME: &'static str = "frames";

    fn compared(&self) -> u64 {
        self.inputs
    }

    fn number(&mut self, seed: u64, number: u64) -> Result<(), Different> {
        let (name, family) = family((number % FAMILIES as u64) as usize);
        self.inputs += 1;
        self.counts.add(name);
        let mut r = Random::for_input(seed, number);
        self.compare(&mut r, family).map_err(|difference| {
            println!("family: {name}");
            difference.print()
        })
    }

    fn cases(&self) -> Vec<(&Counts, Vec<Name>)> {
        vec![(&self.counts, wanted())]
    }

    fn inputs(&self) -> String {
        format!("{} inputs", self.inputs)
    }
}

fn main() -> ExitCode {
    comparison::run("compare_frames COUNT SEED", |_, _, more| {
        more.is_empty().then(|| FrameComparison {
            counts: Counts::default(),
            inputs: 0,
        })
    })
}
