//! Journal lines as fields, over the stored part that they change: both from
//! 01's text alone, so that what a journal must hold is known without either
//! side.

use std::fmt::Write;

use crate::numbers::{LAST, ME, MEMBERS, TERM, VOTE};
use crate::random::Random;
use crate::records::{self, boxes, term_within, Record, LAST_TERM};

pub const LONGEST_LOG: u64 = 256;
pub const MOST_ENTRIES: u64 = 4;

/// Term and order.
pub type Entry = (u64, u64);

/// What is stored of a box, with its number and mask.
#[derive(Clone, Default, PartialEq)]
pub struct Stored {
    pub me: u64,
    pub mask: u64,
    pub term: u64,
    pub vote: u64,
    pub log: Vec<Entry>,
}

/// Count is by itself, so that it can be a wrong one.
#[derive(Clone)]
pub struct Line {
    pub version: u64,
    pub kind: u64,
    pub me: u64,
    pub term: u64,
    pub vote: u64,
    pub kept: u64,
    pub count: u64,
    pub entries: Vec<Entry>,
}

/// The head of a box and its mask, which may be bad ones.
pub fn head(me: u64, mask: u64) -> Vec<u8> {
    format!("0111{me:02x}{mask:02x}\n").into()
}

impl Stored {
    pub fn of(record: &Record) -> Stored {
        let last = record.get(LAST) as usize;
        let log = record.terms[..last].iter().zip(&record.orders);
        Stored {
            me: record.get(ME),
            mask: record.get(MEMBERS),
            term: record.get(TERM),
            vote: record.get(VOTE),
            log: log
                .map(|(term, order)| (u64::from(*term), *order))
                .collect(),
        }
    }

    pub fn last(&self) -> u64 {
        self.log.len() as u64
    }

    /// The term of the entry there, 0 at index 0.
    pub fn term_at(&self, index: u64) -> u64 {
        match index {
            0 => 0,
            _ => self.log[index as usize - 1].0,
        }
    }

    pub fn head(&self) -> Vec<u8> {
        head(self.me, self.mask)
    }

    /// What a line that breaks no rule leaves.
    pub fn after(&self, line: &Line) -> Stored {
        let kept = &self.log[..line.kept as usize];
        Stored {
            term: line.term,
            vote: line.vote,
            log: [kept, &line.entries].concat(),
            ..*self
        }
    }

    /// The line that changes nothing.
    pub fn line(&self) -> Line {
        Line {
            version: 0x01,
            kind: 0x10,
            me: self.me,
            term: self.term,
            vote: self.vote,
            kept: self.last(),
            count: 0,
            entries: Vec::new(),
        }
    }
}

impl Line {
    pub fn text(&self) -> Vec<u8> {
        let mut text = format!(
            "{:02x}{:02x}{:02x}{:08x}{:02x}{:04x}{:02x}",
            self.version, self.kind, self.me, self.term, self.vote, self.kept, self.count
        );
        for (term, order) in &self.entries {
            write!(text, "{term:08x}{order:016x}").expect("text");
        }
        text.push('\n');
        text.into_bytes()
    }

    pub fn with(mut self, entries: Vec<Entry>) -> Line {
        self.count = entries.len() as u64;
        self.entries = entries;
        self
    }

    /// No entry's term above that; what never falls still does not.
    pub fn lower(&mut self, most: u64) {
        for entry in &mut self.entries {
            entry.0 = entry.0.min(most);
        }
    }
}

/// So many entries after the one at kept, in the line's term.
pub fn entries(r: &mut Random, stored: &Stored, line: &Line, count: u64) -> Vec<Entry> {
    let mut low = stored.term_at(line.kept).max(1);
    let mut entries = Vec::new();
    for _ in 0..count {
        low = term_within(r, low, line.term);
        entries.push((low, records::order(r)));
    }
    entries
}

/// Mostly a little higher, so that most journals end below the last term.
fn higher(r: &mut Random, term: u64) -> Option<u64> {
    if term == LAST_TERM {
        return None;
    }
    let edges = [256, 0x1_0000, 0x100_0000, 0x8000_0000, LAST_TERM];
    let next = match r.below(60) {
        0 => r.of(&edges) - r.between(0, 1),
        1 => LAST_TERM - r.between(0, 1),
        2..=9 => term + r.between(1, 300),
        10..=20 => term + r.between(1, 3),
        _ => term + 1,
    };
    Some(next.clamp(term + 1, LAST_TERM))
}

/// In a higher term, with a vote or without.
fn raised(r: &mut Random, stored: &Stored) -> Option<Line> {
    let mut line = stored.line();
    line.term = higher(r, stored.term)?;
    line.vote = match r.one_in(2) {
        true => 0,
        false => r.of(&boxes(stored.mask)),
    };
    Some(line)
}

/// In the box's own term with its vote, or in a higher one.
fn in_some_term(r: &mut Random, stored: &Stored) -> Option<Line> {
    match stored.term {
        0 => raised(r, stored),
        LAST_TERM => Some(stored.line()),
        _ if r.one_in(3) => raised(r, stored),
        _ => Some(stored.line()),
    }
}

fn cut(r: &mut Random, stored: &Stored) -> Option<Line> {
    let mut line = in_some_term(r, stored)?;
    let most = stored.last().checked_sub(1)?;
    line.kept = match r.below(4) {
        0 => most - r.between(0, 6).min(most),
        _ => r.edged(0, most),
    };
    Some(line)
}

fn again(r: &mut Random, stored: &Stored) -> Option<Line> {
    let line = cut(r, stored)?;
    let standing = &stored.log[line.kept as usize..];
    let count = r.between(1, MOST_ENTRIES).min(standing.len() as u64);
    let entries = standing[..count as usize].to_vec();
    Some(line.with(entries))
}

/// None where no such line fits the stored part.
type Make = fn(&mut Random, &Stored) -> Option<Line>;

/// Every kind of line that breaks no rule.
pub const KINDS: [(&str, Make); 7] = [
    ("line_raises_term", raised),
    ("line_gives_vote", |r, stored| {
        let mut line = stored.line();
        line.vote = r.of(&boxes(stored.mask));
        (stored.term >= 1 && stored.vote == 0).then_some(line)
    }),
    ("line_adds", |r, stored| {
        let line = in_some_term(r, stored)?;
        let room = LONGEST_LOG - line.kept;
        let count = r.between(1, MOST_ENTRIES).min(room);
        let added = entries(r, stored, &line, count);
        (count > 0).then(|| line.with(added))
    }),
    ("line_cuts_and_adds", |r, stored| {
        let line = cut(r, stored)?;
        let count = r.between(1, MOST_ENTRIES).min(LONGEST_LOG - line.kept);
        let added = entries(r, stored, &line, count);
        Some(line.with(added))
    }),
    ("line_cuts", cut),
    ("line_adds_again", again),
    ("line_changes_nothing", |_, stored| {
        (stored.term >= 1).then(|| stored.line())
    }),
];

pub const RAISES: usize = 0;
pub const ADDS: usize = 2;
pub const CUTS_AND_ADDS: usize = 3;
pub const ADDS_AGAIN: usize = 5;

/// A line of any kind that fits.
pub fn any(r: &mut Random, stored: &Stored) -> Line {
    loop {
        let kind = r.of(&[0, 1, 2, 2, 2, 2, 2, 3, 3, 4, 5, 6]);
        if let Some(line) = KINDS[kind].1(r, stored) {
            return line;
        }
    }
}
