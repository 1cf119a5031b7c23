//! The box's record, and every rule of it.

use crate::members::{bit, is_member, is_membership, BOXES};
use crate::message::Entry;
use crate::refusals::BAD_RECORD;

pub const FOLLOWER: u8 = 0;
pub const CANDIDATE: u8 = 1;
pub const LEADER: u8 = 2;

pub const LONGEST_LOG: u16 = 256;

/// The log is lent: entry i has its term and its order, the number of its 8
/// bytes, at place i - 1. What stands past the last index is no part of it.
pub type Terms = [u32; LONGEST_LOG as usize];
pub type Orders = [u64; LONGEST_LOG as usize];

/// The box's record but for the log; in `next` and `matched` box i has place
/// i - 1.
#[derive(Clone, Copy, Debug, PartialEq, Eq)]
pub struct Node {
    pub me: u8,
    pub members: u8,
    pub term: u32,
    pub vote: u8,
    pub last: u16,
    pub commit: u16,
    pub role: u8,
    pub votes: u8,
    pub next: [u16; BOXES],
    pub matched: [u16; BOXES],
}

/// A fresh box, of a membership that holds it.
pub(crate) fn fresh(me: u8, members: u8) -> Node {
    Node {
        me,
        members,
        term: 0,
        vote: 0,
        last: 0,
        commit: 0,
        role: FOLLOWER,
        votes: 0,
        next: [0; BOXES],
        matched: [0; BOXES],
    }
}

/// The term of the entry there, 0 at index 0.
pub(crate) fn term_at(terms: &Terms, index: u16) -> u32 {
    match index {
        0 => 0,
        _ => terms[usize::from(index - 1)],
    }
}

/// The entry comes after so many others.
pub(crate) fn store(entry: Entry, kept: u16, terms: &mut Terms, orders: &mut Orders) {
    terms[usize::from(kept)] = entry.term;
    orders[usize::from(kept)] = u64::from_be_bytes(entry.order);
}

/// How many entries are handed out; the orders are there for whoever takes them.
pub fn handed_out(node: &Node, terms: &Terms, _orders: &Orders) -> Result<u16, u8> {
    node.check(terms)?;
    Ok(node.commit)
}

impl Node {
    /// Every rule of 01's record.
    pub fn is_good(&self, terms: &Terms) -> bool {
        let Some(log) = terms.get(..usize::from(self.last)) else {
            return false;
        };
        if !is_membership(self.me, self.members) {
            return false;
        }
        let (votes_good, vote_good) = match self.role {
            FOLLOWER => (
                self.votes == 0,
                self.vote == 0 || is_member(self.vote, self.members),
            ),
            CANDIDATE => (
                self.votes & bit(self.me) != 0 && self.votes & !self.members == 0,
                self.vote == self.me && self.term >= 1,
            ),
            LEADER => (self.votes == 0, self.vote == self.me && self.term >= 1),
            _ => return false,
        };
        votes_good
            && vote_good
            && self.commit <= self.last
            && self.sending_is_good()
            && self.log_is_good(log)
    }

    fn sending_is_good(&self) -> bool {
        if self.role != LEADER {
            return self.next == [0; BOXES] && self.matched == [0; BOXES];
        }
        let others = self.others();
        let mut good = true;
        for (place, (&next, &matched)) in self.next.iter().zip(&self.matched).enumerate() {
            good &= if others >> place & 1 == 1 {
                matched < next && next <= self.last + 1
            } else {
                next == 0 && matched == 0
            };
        }
        good
    }

    fn log_is_good(&self, log: &[u32]) -> bool {
        let [first, later @ ..] = log else {
            return true;
        };
        // No way out early, so that several terms are compared at a time.
        let falls = log
            .iter()
            .zip(later)
            .fold(false, |falls, (before, after)| falls | (before > after));
        // Terms that never fall lie between the first and the last one.
        !falls && *first >= 1 && later.last().unwrap_or(first) <= &self.term
    }

    pub(crate) fn check(&self, terms: &Terms) -> Result<(), u8> {
        if self.is_good(terms) {
            Ok(())
        } else {
            Err(BAD_RECORD)
        }
    }

    pub(crate) fn others(&self) -> u8 {
        self.members & !bit(self.me)
    }

    pub(crate) fn last_term(&self, terms: &Terms) -> u32 {
        term_at(terms, self.last)
    }

    pub(crate) fn follow(&mut self) {
        self.role = FOLLOWER;
        self.votes = 0;
        self.next = [0; BOXES];
        self.matched = [0; BOXES];
    }
}
