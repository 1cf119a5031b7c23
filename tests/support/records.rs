//! Seeded random records of a box that break no rule, made from 01's rules alone.

use crate::numbers::{
    CANDIDATE, COMMIT, FOLLOWER, LAST, LEADER, MATCH, ME, MEMBERS, NEXT, NUMBERS, ROLE, TERM, VOTE,
    VOTES,
};
use crate::random::Random;

const ALL_BOXES: u64 = 0x7f;
pub const LAST_TERM: u64 = u32::MAX as u64;

#[derive(Clone, PartialEq)]
pub struct Record {
    pub numbers: [u64; NUMBERS],
    pub terms: [u32; 256],
    pub orders: [u64; 256],
}

/// Any 8 bytes; often all zeros, which are the blank's, or all but one bit of them.
pub fn order(r: &mut Random) -> u64 {
    match r.below(7) {
        0 => 0,
        1 => u64::MAX,
        2 => 0xff << 56,
        3 => r.between(0, 256),
        4 => 1 << r.between(0, 63),
        _ => r.next(),
    }
}

/// The boxes of a mask.
pub fn boxes(mask: u64) -> Vec<u64> {
    (1..=7)
        .filter(|number| mask >> (number - 1) & 1 == 1)
        .collect()
}

pub fn bit(number: u64) -> u64 {
    1 << (number - 1)
}

/// Some of the mask's boxes, each as likely in as out.
pub(crate) fn part_of(r: &mut Random, mask: u64) -> u64 {
    r.next() & mask
}

/// A box and a membership that holds it; every size is as likely.
pub fn membership(r: &mut Random) -> (u64, u64) {
    let size = r.between(1, 7) as u32;
    let mut mask = 0u64;
    while mask.count_ones() < size {
        mask |= bit(r.between(1, 7));
    }
    (r.of(&boxes(mask)), mask)
}

impl Record {
    /// These numbers, and a log of which nothing is known.
    pub fn with_any_log(numbers: [u64; NUMBERS], r: &mut Random) -> Record {
        let mut record = Record {
            numbers,
            terms: [0; 256],
            orders: [0; 256],
        };
        // Low terms too, which would go well with a log one longer.
        let shift = r.between(0, 31);
        record.terms.fill_with(|| r.next() as u32 >> shift);
        record.orders.fill_with(|| order(r));
        record
    }

    pub fn get(&self, place: usize) -> u64 {
        self.numbers[place]
    }

    pub fn set(&mut self, place: usize, number: u64) {
        self.numbers[place] = number;
    }

    pub fn others(&self) -> u64 {
        self.get(MEMBERS) & !bit(self.get(ME))
    }

    pub fn strangers(&self) -> u64 {
        ALL_BOXES & !self.get(MEMBERS)
    }

    pub fn last_term(&self) -> u64 {
        self.term_at(self.get(LAST))
    }

    /// The term of the entry there, 0 at index 0.
    pub fn term_at(&self, index: u64) -> u64 {
        match index {
            0 => 0,
            _ => self.terms[index as usize - 1].into(),
        }
    }

    /// What a restart leaves.
    pub fn restart(&mut self) {
        self.set(ROLE, FOLLOWER);
        self.set(COMMIT, 0);
        self.numbers[VOTES..].fill(0);
    }
}

fn log_length(r: &mut Random) -> u64 {
    match r.below(6) {
        0 => 0,
        1 => 256,
        2 => r.between(1, 6),
        3 => r.between(250, 255),
        _ => r.between(0, 256),
    }
}

/// From `low` on: near it, at the ends of a byte, or near the last.
fn term_from(r: &mut Random, low: u64) -> u64 {
    let term = match r.below(6) {
        0 => low + r.between(0, 1),
        1 => low + r.between(0, 5),
        2 => r.of(&[255, 256, 257, 65535, 65536]),
        3 => LAST_TERM - r.between(0, 1),
        4 => r.between(low, LAST_TERM),
        _ => r.next() >> r.between(32, 63),
    };
    term.clamp(low, LAST_TERM)
}

/// `low` to `high`, often one of the two.
pub fn term_within(r: &mut Random, low: u64, high: u64) -> u64 {
    match r.below(4) {
        0 => low,
        1 => high,
        2 => r.between(low, high.min(low + 3)),
        _ => r.between(low, high),
    }
}

/// Terms of so many entries in this term: none of them of the term itself, or
/// the later ones, or as it comes.
fn fill_log(record: &mut Record, r: &mut Random) {
    let (term, length) = (record.get(TERM), record.get(LAST) as usize);
    let own_from = match r.below(3) {
        0 => length - r.edged(0, length as u64) as usize,
        _ => length,
    };
    let high = if r.one_in(3) { (term - 1).max(1) } else { term };
    let rarely = r.of(&[1, 3, 20, 300]);
    let mut low = term_within(r, 1, high);
    for (place, entry_term) in record.terms[..length].iter_mut().enumerate() {
        if r.one_in(rarely) {
            low = term_within(r, low, high);
        }
        *entry_term = if place < own_from { low } else { term } as u32;
    }
}

/// Next and match of the others, mostly in some relation to each other and to
/// the log's end, so that a majority often matches something.
fn fill_sending(record: &mut Record, r: &mut Random) {
    let last = record.get(LAST);
    let common = r.edged(0, last);
    let way = r.below(4);
    for number in boxes(record.others()) {
        let place = number as usize - 1;
        let matched = match way {
            0 => 0,
            1 => last - r.between(0, 3).min(last),
            2 if r.one_in(2) => common,
            _ => r.edged(0, last),
        };
        let next = match r.below(4) {
            0 => matched + 1,
            1 => last + 1,
            2 => matched + 1 + r.between(0, 5).min(last - matched),
            _ => r.between(matched + 1, last + 1),
        };
        record.set(NEXT + place, next);
        record.set(MATCH + place, matched);
    }
}

/// A record that breaks no rule.
pub(crate) fn good(r: &mut Random, role: u64) -> Record {
    let (me, members) = membership(r);
    let length = log_length(r);
    let lowest = u64::from(role != FOLLOWER || length > 0);
    let mut record = Record::with_any_log([0; NUMBERS], r);
    record.set(ME, me);
    record.set(MEMBERS, members);
    record.set(TERM, term_from(r, lowest));
    record.set(LAST, length);
    record.set(COMMIT, r.edged(0, length));
    record.set(ROLE, role);
    let vote = match r.below(3) {
        0 if role == FOLLOWER => 0,
        1 if role == FOLLOWER => r.of(&boxes(members)),
        _ => me,
    };
    record.set(VOTE, vote);
    if length > 0 {
        fill_log(&mut record, r);
    }
    if role == CANDIDATE {
        let votes = bit(me) | part_of(r, members);
        record.set(VOTES, votes);
    }
    if role == LEADER {
        fill_sending(&mut record, r);
    }
    record
}

/// A good record of which this holds as well.
pub(crate) fn good_with(r: &mut Random, role: u64, holds: impl Fn(&Record) -> bool) -> Record {
    loop {
        let record = good(r, role);
        if holds(&record) {
            return record;
        }
    }
}

/// The boxes of one park after a power loss: each holds a part of one log, and
/// nobody has voted yet in their term, which is above the log's.
pub fn park(r: &mut Random) -> Vec<Record> {
    let whole = good_with(r, FOLLOWER, |record| {
        record.others() != 0 && record.last_term() < record.get(TERM)
    });
    let one = |number: u64| {
        let mut record = whole.clone();
        record.restart();
        record.set(ME, number);
        record.set(VOTE, 0);
        let lacking = if r.one_in(2) { 0 } else { r.between(0, 9) };
        record.set(LAST, whole.get(LAST).saturating_sub(lacking));
        record
    };
    boxes(whole.get(MEMBERS)).into_iter().map(one).collect()
}

pub(crate) type Make = fn(&mut Random) -> Record;

pub const GOOD: [(&str, Make); 3] = [
    ("follower", |r| good(r, FOLLOWER)),
    ("candidate", |r| good(r, CANDIDATE)),
    ("leader", |r| good(r, LEADER)),
];
