//! The cases of appends and append answers.

use support::numbers::{CANDIDATE, COMMIT, LAST, LEADER, MATCH, MEMBERS, NEXT, ROLE, TERM};
use support::received_frames::Fields;

use crate::cases_met::{entries_of, CasesMet};

pub const WANTED: [&str; 42] = [
    // Appends.
    "candidate_steps_down_with_yes",
    "candidate_steps_down_with_no",
    "lacking_past_the_end",
    "lacking_with_other_term",
    "lacking_against_commit",
    "heartbeat",
    "heartbeat_to_full_log",
    "all_held",
    "all_held_old_append",
    "all_held_with_other_order",
    "held_then_added",
    "filled_the_log",
    "zeros_added",
    "zeros_taken_for_another_order",
    "cut_at_first_entry",
    "cut_after_held_entries",
    "cut_right_after_commit",
    "cut_whole_log",
    "cut_by_lower_entry_term",
    "cut_to_shorter_log",
    "cut_to_longer_log",
    "commit_raised_to_leaders",
    "commit_raised_to_covered",
    "commit_raised_below_own_log",
    "commit_kept_by_leaders",
    "commit_kept_by_covered",
    // Append answers.
    "match_raised",
    "match_raised_below_next",
    "match_kept_by_old_yes",
    "next_stepped_back",
    "next_kept_at_match",
    "none_sent_after_yes",
    "commit_moved_by_yes",
    "commit_moved_by_old_yes",
    "commit_moved_by_no",
    "commit_moved_over_older_term",
    "answer_commit_not_moved",
    "answer_commit_not_moved_for_older_term",
    "answer_commit_not_moved_by_half",
    "append_answer_at_follower",
    "append_answer_at_candidate",
    "past_the_log_at_follower",
];

impl CasesMet<'_> {
    pub fn append(&mut self, f: &Fields) {
        let before = |place| self.before.get(place);
        let holds = self.holds_previous(f);
        let lacks = !holds;
        let steps_down = before(ROLE) == CANDIDATE && f.term == before(TERM);
        let past_the_end = f.index > before(LAST);
        let committed = f.index <= before(COMMIT);
        self.counts.add_each(&[
            (steps_down && holds, "candidate_steps_down_with_yes"),
            (steps_down && lacks, "candidate_steps_down_with_no"),
            (lacks && past_the_end, "lacking_past_the_end"),
            (lacks && !past_the_end, "lacking_with_other_term"),
            (lacks && committed, "lacking_against_commit"),
        ]);
        if holds {
            self.entries(f);
            self.append_commit(f);
        }
    }

    /// What an append with a previous entry that is there does to the log.
    fn entries(&mut self, f: &Fields) {
        let (last, held) = (self.before.get(LAST), self.held(f));
        let added = f.count() - held;
        let is_blank = |(_, order): &(u64, u64)| *order == 0;
        let zeros = f.entries[held as usize..].iter().any(is_blank);
        self.counts.add_each(&[(zeros, "zeros_added")]);
        if f.count() == 0 {
            let full = f.index == 256;
            self.counts
                .add_each(&[(true, "heartbeat"), (full, "heartbeat_to_full_log")]);
        } else if added == 0 {
            self.all_held(f);
        } else if f.index + held == last {
            self.counts.add_of("added_past_the_end", added);
            self.counts.add_each(&[
                (held > 0, "held_then_added"),
                (f.end() == 256, "filled_the_log"),
            ]);
        } else {
            self.counts.add_of("added_after_cut", added);
            self.cut(f, f.index + held + 1);
        }
    }

    fn all_held(&mut self, f: &Fields) {
        let orders = &self.before.orders[f.index as usize..];
        let pairs = || f.entries.iter().zip(orders);
        let other_order = pairs().any(|((_, order), held)| order != held);
        let zeros = pairs().any(|((_, order), held)| *order == 0 && *held != 0);
        let old = f.end() < self.before.get(LAST);
        self.counts.add_each(&[
            (true, "all_held"),
            (old, "all_held_old_append"),
            (other_order, "all_held_with_other_order"),
            (zeros, "zeros_taken_for_another_order"),
        ]);
    }

    /// The entry of this index is the first that is cut.
    fn cut(&mut self, f: &Fields, index: u64) {
        let (last, commit) = (self.before.get(LAST), self.before.get(COMMIT));
        let first = index == f.index + 1;
        let (term, _) = f.entries[(index - f.index - 1) as usize];
        self.counts.add_each(&[
            (first, "cut_at_first_entry"),
            (!first, "cut_after_held_entries"),
            (index == commit + 1, "cut_right_after_commit"),
            (index == 1, "cut_whole_log"),
            (term < self.before.term_at(index), "cut_by_lower_entry_term"),
            (f.end() < last, "cut_to_shorter_log"),
            (f.end() > last, "cut_to_longer_log"),
        ]);
    }

    fn append_commit(&mut self, f: &Fields) {
        let (commit, end, moved) = (self.before.get(COMMIT), f.end(), self.moved());
        let covered = f.commit > end;
        self.counts.add_each(&[
            (!moved && f.commit < commit, "commit_kept_by_leaders"),
            (!moved && f.commit > commit, "commit_kept_by_covered"),
            (moved && !covered, "commit_raised_to_leaders"),
            (moved && covered, "commit_raised_to_covered"),
            (
                moved && covered && end < self.after.get(LAST),
                "commit_raised_below_own_log",
            ),
        ]);
    }

    pub fn append_answer(&mut self, f: &Fields) {
        match self.before.get(ROLE) {
            LEADER => {}
            CANDIDATE => return self.counts.add("append_answer_at_candidate"),
            _ => {
                if f.index > self.before.get(LAST) {
                    self.counts.add("past_the_log_at_follower");
                }
                return self.counts.add("append_answer_at_follower");
            }
        }
        let place = f.from as usize - 1;
        let matched = self.before.get(MATCH + place);
        let next = self.before.get(NEXT + place);
        let raised = f.index > matched;
        self.counts.add(match f.yes {
            0 if next > matched + 1 => "next_stepped_back",
            0 => "next_kept_at_match",
            _ if raised && f.index + 1 < next => "match_raised_below_next",
            _ if raised => "match_raised",
            _ => "match_kept_by_old_yes",
        });
        match (self.taken.messages().next().map(entries_of), f.yes) {
            (None, _) => self.counts.add("none_sent_after_yes"),
            (Some(count), 0) => self.counts.add_of("sent_after_no_of", count),
            (Some(count), _) => self.counts.add_of("sent_after_yes_of", count),
        }
        self.answer_commit(f.yes == 1, raised);
    }

    fn answer_commit(&mut self, yes: bool, raised: bool) {
        let (members, matching) = (self.after.get(MEMBERS).count_ones(), self.matching());
        if self.moved() {
            self.counts.add(match (yes, raised) {
                (false, _) => "commit_moved_by_no",
                (true, false) => "commit_moved_by_old_yes",
                (true, true) => "commit_moved_by_yes",
            });
            let next = self.before.get(COMMIT) + 1;
            if self.before.term_at(next) < self.before.get(TERM) {
                self.counts.add("commit_moved_over_older_term");
            }
            return;
        }
        self.counts.add_each(&[
            (true, "answer_commit_not_moved"),
            (
                2 * matching > members,
                "answer_commit_not_moved_for_older_term",
            ),
            (2 * matching == members, "answer_commit_not_moved_by_half"),
        ]);
    }
}
