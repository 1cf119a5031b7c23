//! Journals with the stored part after each of their lines, and such as are made
//! of random lines that break no rule.

use crate::journal_lines::{self, Line, Stored, ADDS, KINDS, LONGEST_LOG};
use crate::random::Random;
use crate::records::{self, LAST_TERM};

#[derive(Clone)]
pub struct Journal {
    pub text: Vec<u8>,
    /// Bytes up to and with each line's line feed, the head's first.
    pub ends: Vec<usize>,
    /// The stored part after each line, the head's first.
    pub after: Vec<Stored>,
}

impl Journal {
    pub fn new(head: &[u8], fresh: Stored) -> Journal {
        Journal {
            text: head.to_vec(),
            ends: vec![head.len()],
            after: vec![fresh],
        }
    }

    pub fn push(&mut self, line: &[u8], after: Stored) {
        self.text.extend(line);
        self.ends.push(self.text.len());
        self.after.push(after);
    }

    fn push_line(&mut self, line: &Line) {
        let after = self.last().after(line);
        self.push(&line.text(), after);
    }

    pub fn last(&self) -> &Stored {
        self.after.last().expect("the head's")
    }

    /// How many lines are whole in so many bytes.
    pub fn whole(&self, bytes: usize) -> usize {
        self.ends.partition_point(|&end| end <= bytes)
    }

    /// The lines after so many, the head counted.
    pub fn rest(&self, lines: usize) -> &[u8] {
        &self.text[self.ends[lines - 1]..]
    }

    fn fresh(r: &mut Random) -> Journal {
        let (me, mask) = records::membership(r);
        let stored = Stored {
            me,
            mask,
            ..Stored::default()
        };
        Journal::new(&stored.head(), stored)
    }

    /// So many lines of any kind.
    pub fn made(r: &mut Random, lines: usize) -> Journal {
        let mut journal = Journal::fresh(r);
        for _ in 0..lines {
            let line = journal_lines::any(r, journal.last());
            journal.push_line(&line);
        }
        journal
    }

    /// A log filled to its end or just short of it, then lines of any kind.
    pub fn full(r: &mut Random) -> Journal {
        let mut journal = Journal::fresh(r);
        let length = r.between(LONGEST_LOG - 5, LONGEST_LOG);
        while journal.last().last() < length {
            let room = length - journal.last().last();
            let Some(mut line) = KINDS[ADDS].1(r, journal.last()) else {
                break;
            };
            line.entries.truncate(room as usize);
            line.count = line.entries.len() as u64;
            journal.push_line(&line);
        }
        for _ in 0..r.below(3) {
            let line = journal_lines::any(r, journal.last());
            journal.push_line(&line);
        }
        journal
    }

    /// More lines than two bytes count, with a short log.
    pub fn long(r: &mut Random) -> Journal {
        let mut journal = Journal::fresh(r);
        while journal.ends.len() < 66_000 {
            let mut line = journal_lines::any(r, journal.last());
            if line.term == LAST_TERM || line.kept + line.count > 6 {
                line = journal.last().line();
                line.term = line.term.max(1);
                line.kept = line.kept.min(2);
            }
            journal.push_line(&line);
        }
        journal
    }
}
