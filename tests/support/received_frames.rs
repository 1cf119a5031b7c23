//! Seeded random frames for a box to receive, each drawn for its record: near
//! its term, its log and what it has sent, where the rules turn. The record may
//! be a bad one; the frame is one for all that.

use twin::flat_frame::{self, FIELDS};
use twin::frames::LONGEST_TEXT;

use crate::damage::{self, DAMAGES};
use crate::journal_lines::head;
use crate::numbers::{CANDIDATE, COMMIT, LAST, LEADER, MATCH, ME, MEMBERS, NEXT, ROLE, TERM, VOTE};
use crate::random::Random;
use crate::records::{self, bit, boxes, term_within, Record, LAST_TERM};

pub const VOTE_REQUEST: u64 = 1;
pub const VOTE_ANSWER: u64 = 2;
pub const APPEND: u64 = 3;
pub const APPEND_ANSWER: u64 = 4;

const LONGEST_LOG: u64 = 256;

/// A message's fields, as wide as a record's numbers. Index and past are the
/// last or previous index and term, or the index named; what a kind lacks is 0.
#[derive(Clone, Default)]
pub struct Fields {
    pub kind: u64,
    pub from: u64,
    pub to: u64,
    pub term: u64,
    pub index: u64,
    pub past: u64,
    pub commit: u64,
    pub yes: u64,
    /// Term and order of each.
    pub entries: Vec<(u64, u64)>,
}

impl Fields {
    /// None when the text is not one frame.
    pub fn of(text: &[u8]) -> Option<Fields> {
        let mut flat = [0; FIELDS];
        if flat_frame::read(text, &mut flat) != 0 {
            return None;
        }
        let [kind, from, to, term, index, past, commit, yes, count, pairs @ ..] = flat;
        let entries = pairs.chunks_exact(2).take(count as usize);
        Some(Fields {
            kind,
            from,
            to,
            term,
            index,
            past,
            commit,
            yes,
            entries: entries.map(|pair| (pair[0], pair[1])).collect(),
        })
    }

    pub fn count(&self) -> u64 {
        self.entries.len() as u64
    }

    /// The last index that an append covers.
    pub fn end(&self) -> u64 {
        self.index + self.count()
    }

    /// The frame.
    fn text(&self) -> Vec<u8> {
        let mut flat = [0; FIELDS];
        flat[..9].copy_from_slice(&[
            self.kind,
            self.from,
            self.to,
            self.term,
            self.index,
            self.past,
            self.commit,
            self.yes,
            self.count(),
        ]);
        for (pair, &(term, order)) in flat[9..].chunks_exact_mut(2).zip(&self.entries) {
            pair.copy_from_slice(&[term, order]);
        }
        let mut text = vec![0; LONGEST_TEXT];
        let answer = flat_frame::write(&flat, &mut text);
        assert_eq!(answer, 0, "no frame: {flat:x?}");
        let digits = text.iter().position(|&byte| byte == b'\n').expect("a line");
        text.truncate(digits + 1);
        text
    }
}

/// The record's number there, at most that.
fn at_most(record: &Record, place: usize, most: u64) -> u64 {
    record.get(place).min(most)
}

fn me(record: &Record) -> u64 {
    record.get(ME).clamp(1, 7)
}

fn others(record: &Record) -> u64 {
    record.get(MEMBERS) & 0x7f & !bit(me(record))
}

/// What stands there, which past the last index is no entry and looks like one.
fn entry_at(record: &Record, index: u64) -> (u64, u64) {
    let place = index as usize - 1;
    (record.terms[place].into(), record.orders[place])
}

/// Mostly the box's own.
fn term(r: &mut Random, record: &Record) -> u64 {
    let own = at_most(record, TERM, LAST_TERM);
    let term = match r.below(12) {
        0 => own + 1,
        1 => own + r.between(1, 5),
        2 => LAST_TERM - r.between(0, 1),
        3 => own.saturating_sub(1),
        4 => r.between(0, own),
        _ => own,
    };
    term.clamp(1, LAST_TERM)
}

/// Another member if there is one, often the one that has the vote.
fn sender(r: &mut Random, record: &Record) -> u64 {
    let others = boxes(others(record));
    let vote = record.get(VOTE);
    match others[..] {
        [] => r.between(1, 7),
        _ if others.contains(&vote) && r.one_in(2) => vote,
        _ => r.of(&others),
    }
}

/// A frame of this kind to this box from another member.
pub fn message(r: &mut Random, record: &Record, kind: u64) -> Fields {
    let mut f = Fields {
        kind,
        from: sender(r, record),
        to: me(record),
        term: term(r, record),
        ..Fields::default()
    };
    match kind {
        VOTE_REQUEST => vote_request(r, record, &mut f),
        VOTE_ANSWER => f.yes = r.of(&[0, 1, 1]),
        APPEND => append(r, record, &mut f),
        _ => append_answer(r, record, &mut f),
    }
    f
}

/// The asker's log is as the box's own or differs a little.
fn vote_request(r: &mut Random, record: &Record, f: &mut Fields) {
    let last = at_most(record, LAST, LONGEST_LOG);
    let own = match last {
        0 => 0,
        _ => entry_at(record, last).0,
    };
    let past = match r.below(8) {
        0 => own.saturating_sub(1),
        1 => own + 1,
        2 => r.between(0, f.term - 1),
        _ => own,
    };
    f.past = past.min(f.term - 1);
    if f.past > 0 {
        let index = match r.below(6) {
            0 => last.saturating_sub(1),
            1 => last + 1,
            2 => r.edged(1, LONGEST_LOG),
            _ => last,
        };
        f.index = index.clamp(1, LONGEST_LOG);
    }
}

/// Where an append begins: at the log's end, at its start, about commit, past
/// the end, or anywhere in it.
fn previous(r: &mut Random, record: &Record) -> u64 {
    let last = at_most(record, LAST, LONGEST_LOG);
    let commit = at_most(record, COMMIT, LONGEST_LOG);
    let index = match r.below(10) {
        0 => 0,
        1 | 2 => last,
        3 => last.saturating_sub(r.between(1, 4)),
        4 => last + r.between(1, 3),
        5 => commit.saturating_sub(r.between(1, 4)),
        6 => r.between(0, LONGEST_LOG),
        7 => r.between(0, last),
        8 => commit + r.between(0, 1),
        _ => r.between(commit, commit.max(last)),
    };
    index.min(LONGEST_LOG)
}

/// Some entries as the box has them, then some of other terms.
fn append(r: &mut Random, record: &Record, f: &mut Fields) {
    f.index = previous(r, record);
    if f.index > 0 {
        let held = entry_at(record, f.index).0;
        let other = term_within(r, 1, f.term);
        f.past = if r.one_in(12) { other } else { held };
        f.past = f.past.clamp(1, f.term);
    }
    let count = r.between(0, 4).min(LONGEST_LOG - f.index);
    let agreeing = r.between(0, 4);
    let other_order = r.one_in(3);
    let mut low = f.past.max(1);
    for place in 0..count {
        let (held, order) = entry_at(record, f.index + place + 1);
        let other = term_within(r, low, f.term);
        low = if place < agreeing { held } else { other }.clamp(low, f.term);
        let order = match other_order {
            true => records::order(r),
            false => order,
        };
        f.entries.push((low, order));
    }
    f.commit = leaders_commit(r, record, f.end());
}

/// About the box's own, about the append's end, or any.
fn leaders_commit(r: &mut Random, record: &Record, end: u64) -> u64 {
    let own = at_most(record, COMMIT, LONGEST_LOG);
    let commit = match r.below(8) {
        0 => 0,
        1 => own.saturating_sub(1),
        2 => own,
        3 => own + 1,
        4 => end.saturating_sub(1),
        5 => end,
        6 => end + r.between(1, 3),
        _ => r.edged(0, LONGEST_LOG),
    };
    commit.min(LONGEST_LOG)
}

/// A yes names an index about match, next or the log's end.
fn append_answer(r: &mut Random, record: &Record, f: &mut Fields) {
    f.yes = r.of(&[0, 1, 1]);
    if f.yes == 0 {
        return;
    }
    let place = f.from as usize - 1;
    let last = at_most(record, LAST, LONGEST_LOG);
    let matched = at_most(record, MATCH + place, LONGEST_LOG);
    let next = at_most(record, NEXT + place, LONGEST_LOG + 1);
    let index = match r.below(10) {
        0 => matched.saturating_sub(1),
        1 => matched,
        2 => matched + 1,
        3 => next.saturating_sub(1),
        4 => next,
        5 | 6 => last,
        7 => last + r.between(1, 2),
        8 => r.between(0, LONGEST_LOG),
        _ => r.between(0, last),
    };
    f.index = index.min(LONGEST_LOG);
}

/// A kind, those that do something in the box's role more often.
fn kind(r: &mut Random, record: &Record) -> u64 {
    let often = match record.get(ROLE) {
        LEADER => [APPEND_ANSWER; 3],
        CANDIDATE => [VOTE_ANSWER, VOTE_ANSWER, APPEND],
        _ => [VOTE_REQUEST, APPEND, APPEND],
    };
    match r.below(2) {
        0 => r.of(&often),
        _ => r.between(VOTE_REQUEST, APPEND_ANSWER),
    }
}

pub fn frame(r: &mut Random, record: &Record) -> Vec<u8> {
    let kind = kind(r, record);
    message(r, record, kind).text()
}

/// To another box, from the box itself, or from a stranger.
pub fn misaddressed(r: &mut Random, record: &Record) -> Vec<u8> {
    let kind = kind(r, record);
    let mut f = message(r, record, kind);
    let strangers = boxes(record.strangers());
    match r.below(3) {
        0 if !strangers.is_empty() => f.from = r.of(&strangers),
        1 => f.from = me(record),
        _ => f.to = 1 + (me(record) + r.between(0, 5)) % 7,
    }
    f.text()
}

/// What is mostly no frame, with the name of what was done.
pub fn damaged(r: &mut Random, record: &Record) -> (&'static str, Vec<u8>) {
    let text = frame(r, record);
    match r.below(DAMAGES.len() + 4) {
        0 => ("empty", vec![]),
        1 => ("head", head(me(record), 0x7f)),
        2 => ("random_bytes", damage::random_bytes(r)),
        3 => {
            let other = frame(r, record);
            ("joined", damage::joined(r, text, other))
        }
        place => {
            let (name, damage) = DAMAGES[place - 4];
            (name, damage(r, text))
        }
    }
}
