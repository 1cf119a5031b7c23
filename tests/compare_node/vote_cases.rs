//! The cases of vote requests and vote answers.

use support::numbers::{
    CANDIDATE, COMMIT, FOLLOWER, LAST, LEADER, MEMBERS, ROLE, TERM, VOTE, VOTES,
};
use support::received_frames::Fields;
use support::records::bit;

use crate::cases_met::CasesMet;

pub const WANTED: [&str; 26] = [
    // Vote requests.
    "vote_given",
    "vote_given_twice",
    "vote_given_to_equal_log",
    "vote_given_to_longer_log",
    "vote_given_to_shorter_log_of_higher_term",
    "vote_refused_by_vote",
    "vote_refused_by_older_log",
    "vote_refused_by_both",
    "vote_refused_to_longer_log_of_lower_term",
    "vote_refused_to_shorter_log",
    "vote_refused_though_given",
    "vote_refused_at_candidate",
    "vote_refused_at_leader",
    // Vote answers.
    "vote_counted",
    "vote_counted_twice",
    "vote_counted_to_half",
    "won_with_majority_before",
    "won_with_blank",
    "won_with_blank_in_empty_log",
    "won_with_blank_over_older_entries",
    "won_with_blank_over_entry_of_its_term",
    "won_with_blank_at_256",
    "won_with_full_log",
    "vote_no_at_candidate",
    "vote_answer_at_follower",
    "vote_answer_at_leader",
];

impl CasesMet<'_> {
    /// The one message sent says yes.
    fn answered_yes(&self) -> bool {
        let answer = self.taken.messages().next().and_then(Fields::of);
        answer.is_some_and(|answer| answer.yes == 1)
    }

    pub fn vote_request(&mut self, f: &Fields) {
        let own_term = f.term == self.before.get(TERM);
        let (vote, role) = match own_term {
            true => (self.before.get(VOTE), self.before.get(ROLE)),
            false => (0, FOLLOWER),
        };
        let (last, last_term) = (self.before.get(LAST), self.before.last_term());
        let (shorter, longer) = (f.index < last, f.index > last);
        let same_term = f.past == last_term;
        let newer = (f.past, f.index) >= (last_term, last);
        let free = vote == 0 || vote == f.from;
        let given = self.answered_yes();
        let no = !given;
        self.counts.add_each(&[
            (given && vote == 0, "vote_given"),
            (given && vote == f.from, "vote_given_twice"),
            (
                given && same_term && f.index == last,
                "vote_given_to_equal_log",
            ),
            (given && same_term && longer, "vote_given_to_longer_log"),
            (given && shorter, "vote_given_to_shorter_log_of_higher_term"),
            (no && newer, "vote_refused_by_vote"),
            (no && free, "vote_refused_by_older_log"),
            (no && !newer && !free, "vote_refused_by_both"),
            (
                no && free && longer,
                "vote_refused_to_longer_log_of_lower_term",
            ),
            (no && free && same_term, "vote_refused_to_shorter_log"),
            (no && vote == f.from, "vote_refused_though_given"),
            (no && role == CANDIDATE, "vote_refused_at_candidate"),
            (no && role == LEADER, "vote_refused_at_leader"),
        ]);
    }

    /// What the box that wins had in its log.
    fn won(&mut self) {
        let (last, commit) = (self.before.get(LAST), self.before.get(COMMIT));
        let blank = last < 256;
        let own = self.before.last_term() == self.before.get(TERM);
        self.counts.add_each(&[
            (blank, "won_with_blank"),
            (last == 0, "won_with_blank_in_empty_log"),
            (
                blank && !own && commit < last,
                "won_with_blank_over_older_entries",
            ),
            (blank && own, "won_with_blank_over_entry_of_its_term"),
            (last == 255, "won_with_blank_at_256"),
            (!blank, "won_with_full_log"),
        ]);
    }

    pub fn vote_answer(&mut self, f: &Fields) {
        let members = self.before.get(MEMBERS).count_ones();
        let votes = self.before.get(VOTES);
        if self.after.get(ROLE) == LEADER && self.before.get(ROLE) == CANDIDATE {
            self.won();
        }
        let name = match self.before.get(ROLE) {
            LEADER => "vote_answer_at_leader",
            CANDIDATE if f.yes == 0 => "vote_no_at_candidate",
            CANDIDATE if 2 * votes.count_ones() > members => "won_with_majority_before",
            CANDIDATE if self.after.get(ROLE) == LEADER => {
                return self.counts.add_of("won_by_votes_of", members.into());
            }
            CANDIDATE if votes & bit(f.from) != 0 => "vote_counted_twice",
            CANDIDATE => {
                if 2 * self.after.get(VOTES).count_ones() == members {
                    self.counts.add("vote_counted_to_half");
                }
                "vote_counted"
            }
            _ => "vote_answer_at_follower",
        };
        self.counts.add(name);
    }
}
