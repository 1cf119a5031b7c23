//! Which of 01's cases a step has met, by name. The names come from the record
//! before and after, the message and what was written, not from either side's
//! own decisions.

use support::counts::{Counts, Name};
use support::numbers::{CANDIDATE, COMMIT, FOLLOWER, LAST, LEADER, MATCH, ME, MEMBERS, ROLE, TERM};
use support::received_frames::{Fields, APPEND, APPEND_ANSWER, VOTE_ANSWER, VOTE_REQUEST};
use support::records::{bit, boxes, Record, LAST_TERM};

use crate::step_by_both::{Event, StepByBoth};
use crate::{append_cases, vote_cases};

/// In the order of the kinds.
const LOWER: [&str; 4] = [
    "lower_vote_request_in_role",
    "lower_vote_answer_in_role",
    "lower_append_in_role",
    "lower_append_answer_in_role",
];
const HIGHER: [&str; 4] = [
    "higher_vote_request_in_role",
    "higher_vote_answer_in_role",
    "higher_append_in_role",
    "higher_append_answer_in_role",
];

/// What a run has to reach: a case that no step reached was not compared.
const WANTED: [&str; 42] = [
    // Without a message.
    "leader_nothing",
    "leader_nothing_in_last_term",
    "won_at_once_with_blank",
    "won_at_once_with_blank_in_empty_log",
    "won_at_once_with_blank_over_older_entries",
    "won_at_once_with_blank_at_256",
    "won_at_once_with_full_log",
    "3_with_full_log",
    "3_for_zeros_at_follower",
    "3_for_zeros_at_candidate",
    "3_for_zeros_with_full_log",
    "12_for_zeros",
    "13",
    "13_alone",
    "13_with_full_log",
    "13_without_entry_of_its_term",
    "one_bit_ordered",
    "commit_moved",
    "commit_moved_alone",
    "commit_not_moved",
    "commit_not_moved_for_older_term",
    "handed_out_none",
    "handed_out_some",
    "handed_out_all",
    // Refused messages.
    "12_before_1",
    "2_to_another",
    "2_from_itself",
    "2_from_a_stranger",
    "2_alone",
    "2_of_higher_term",
    "2_before_6",
    "2_before_7",
    "2_before_8",
    "6_before_7",
    "7_at_commit",
    "7_below_commit",
    "7_after_held_entries",
    "7_of_higher_term",
    "7_at_candidate",
    "8_by_one",
    "8_by_more",
    "last_term_taken",
];

pub fn wanted() -> Vec<Name> {
    let plain = WANTED.iter().chain(&vote_cases::WANTED);
    let plain = plain.chain(&append_cases::WANTED);
    let mut names: Vec<Name> = plain.map(|name| (*name, None)).collect();
    let mut several = |name, numbers: std::ops::RangeInclusive<u64>| {
        names.extend(numbers.map(|number| (name, Some(number))));
    };
    several("9_in_role", 0..=1);
    several("vote_requests", 1..=6);
    several("order_appends", 0..=6);
    several("prompt_appends", 0..=6);
    several("append_of", 0..=4);
    for kind in 0..4 {
        several(LOWER[kind], 0..=2);
        several(HIGHER[kind], 0..=2);
    }
    several("2_of_kind", 1..=4);
    several("won_by_votes_of", 2..=7);
    several("added_past_the_end", 1..=4);
    several("added_after_cut", 1..=4);
    several("sent_after_yes_of", 1..=4);
    several("sent_after_no_of", 0..=4);
    names
}

/// A step taken or refused with room for everything.
pub struct CasesMet<'a> {
    pub counts: &'a mut Counts,
    pub taken: &'a StepByBoth<'a>,
    pub before: &'a Record,
    pub after: &'a Record,
}

impl CasesMet<'_> {
    pub fn count(&mut self) {
        let before = |place| self.before.get(place);
        match (self.taken.event, self.taken.refusal()) {
            (Event::Timeout, 0) => self.timeout(),
            (Event::Timeout, 9) => self.counts.add_of("9_in_role", before(ROLE)),
            (Event::Order(0), refusal) => self.zeros(refusal),
            (Event::Order(_), 3) if before(LAST) == 256 => self.counts.add("3_with_full_log"),
            (Event::Order(order), 0) => {
                self.counts
                    .add_each(&[(order.count_ones() == 1, "one_bit_ordered")]);
                self.appends("order_appends");
                self.order_commit();
            }
            (Event::Prompt, 0) => self.appends("prompt_appends"),
            (Event::HandedOut, 0) => {
                let count = self.taken.after.sizes()[0];
                self.counts.add(match count {
                    0 => "handed_out_none",
                    _ if count == before(LAST) => "handed_out_all",
                    _ => "handed_out_some",
                });
            }
            (Event::Receive(text), refusal) => match Fields::of(text) {
                Some(f) => self.frame(&f, refusal),
                None if refusal == 12 => self.counts.add("12_before_1"),
                None => {}
            },
            _ => {}
        }
    }

    fn timeout(&mut self) {
        if self.before.get(ROLE) == LEADER {
            self.counts.add("leader_nothing");
            if self.before.get(TERM) == LAST_TERM {
                self.counts.add("leader_nothing_in_last_term");
            }
        } else if self.after.get(ROLE) == LEADER {
            self.won_at_once();
        } else {
            let requests = self.taken.messages().count();
            self.counts.add_of("vote_requests", requests as u64);
        }
    }

    fn won_at_once(&mut self) {
        let (last, commit) = (self.before.get(LAST), self.before.get(COMMIT));
        let blank = last < 256;
        self.counts.add_each(&[
            (blank, "won_at_once_with_blank"),
            (last == 0, "won_at_once_with_blank_in_empty_log"),
            (
                blank && commit < last,
                "won_at_once_with_blank_over_older_entries",
            ),
            (last == 255, "won_at_once_with_blank_at_256"),
            (!blank, "won_at_once_with_full_log"),
        ]);
    }

    /// An order of eight zeros, which no box takes.
    fn zeros(&mut self, refusal: u8) {
        let before = |place| self.before.get(place);
        let full = before(LAST) == 256;
        self.counts.add_each(&[
            (
                refusal == 3 && before(ROLE) == FOLLOWER,
                "3_for_zeros_at_follower",
            ),
            (
                refusal == 3 && before(ROLE) == CANDIDATE,
                "3_for_zeros_at_candidate",
            ),
            (refusal == 3 && full, "3_for_zeros_with_full_log"),
            (refusal == 12, "12_for_zeros"),
        ]);
        if refusal == 13 {
            let own = self.before.last_term() == before(TERM);
            self.counts.add_each(&[
                (true, "13"),
                (self.before.others() == 0, "13_alone"),
                (full, "13_with_full_log"),
                (!own, "13_without_entry_of_its_term"),
            ]);
        }
    }

    fn appends(&mut self, name: &'static str) {
        let mut appends = 0;
        for append in self.taken.messages() {
            self.counts.add_of("append_of", entries_of(append));
            appends += 1;
        }
        self.counts.add_of(name, appends);
    }

    pub fn moved(&self) -> bool {
        self.after.get(COMMIT) != self.before.get(COMMIT)
    }

    /// How many members match the entry after commit.
    pub fn matching(&self) -> u32 {
        let index = self.after.get(COMMIT) + 1;
        let others = boxes(self.after.others());
        let others = others
            .iter()
            .filter(|&&number| self.after.get(MATCH + number as usize - 1) >= index);
        u32::from(index <= self.after.get(LAST)) + others.count() as u32
    }

    fn order_commit(&mut self) {
        if self.moved() {
            let alone = self.after.others() == 0;
            self.counts.add(match alone {
                true => "commit_moved_alone",
                false => "commit_moved",
            });
            return;
        }
        self.counts.add("commit_not_moved");
        if 2 * self.matching() > self.after.get(MEMBERS).count_ones() {
            self.counts.add("commit_not_moved_for_older_term");
        }
    }

    fn frame(&mut self, f: &Fields, refusal: u8) {
        let (own, role) = (self.before.get(TERM), self.before.get(ROLE));
        let kind = f.kind as usize - 1;
        match refusal {
            0 if f.term < own => self.counts.add_of(LOWER[kind], role),
            0 => {
                if f.term > own {
                    self.counts.add_of(HIGHER[kind], role);
                    let last = f.term == LAST_TERM;
                    self.counts.add_each(&[(last, "last_term_taken")]);
                }
                match f.kind {
                    VOTE_REQUEST => self.vote_request(f),
                    APPEND => self.append(f),
                    // An answer of a higher term is no more than its term.
                    _ if f.term > own => {}
                    VOTE_ANSWER => self.vote_answer(f),
                    _ => self.append_answer(f),
                }
            }
            2 => self.misaddressed(f),
            6 if self.cuts_committed(f) => self.counts.add("6_before_7"),
            7 => self.alarm_7(f),
            8 => self.counts.add(match f.index == self.before.get(LAST) + 1 {
                true => "8_by_one",
                false => "8_by_more",
            }),
            _ => {}
        }
    }

    fn misaddressed(&mut self, f: &Fields) {
        let before = |place| self.before.get(place);
        let leads = f.term == before(TERM) && before(ROLE) == LEADER;
        let past_the_log = f.kind == APPEND_ANSWER && f.index > before(LAST);
        self.counts.add_each(&[
            (f.to != before(ME), "2_to_another"),
            (f.from == before(ME), "2_from_itself"),
            (before(MEMBERS) & bit(f.from) == 0, "2_from_a_stranger"),
            (self.before.others() == 0, "2_alone"),
            (f.term > before(TERM), "2_of_higher_term"),
            (leads && f.kind == APPEND, "2_before_6"),
            (!leads && self.cuts_committed(f), "2_before_7"),
            (leads && past_the_log, "2_before_8"),
        ]);
        self.counts.add_of("2_of_kind", f.kind);
    }

    /// The log has the previous entry.
    pub fn holds_previous(&self, f: &Fields) -> bool {
        f.index <= self.before.get(LAST) && self.before.term_at(f.index) == f.past
    }

    /// How many of the append's entries are there already.
    pub fn held(&self, f: &Fields) -> u64 {
        let log = f.index + 1..=self.before.get(LAST);
        log.zip(&f.entries)
            .take_while(|(index, (term, _))| self.before.term_at(*index) == *term)
            .count() as u64
    }

    fn cuts_committed(&self, f: &Fields) -> bool {
        let held = self.held(f);
        f.kind == APPEND
            && f.term >= self.before.get(TERM)
            && self.holds_previous(f)
            && held < f.count()
            && f.index + held < self.before.get(COMMIT)
    }

    fn alarm_7(&mut self, f: &Fields) {
        let before = |place| self.before.get(place);
        let held = self.held(f);
        self.counts.add(match f.index + held + 1 == before(COMMIT) {
            true => "7_at_commit",
            false => "7_below_commit",
        });
        self.counts.add_each(&[
            (held > 0, "7_after_held_entries"),
            (f.term > before(TERM), "7_of_higher_term"),
            (before(ROLE) == CANDIDATE, "7_at_candidate"),
        ]);
    }
}

/// How many entries the append carries.
pub fn entries_of(append: &[u8]) -> u64 {
    (append.len() as u64 - 35) / 24
}
