//! **Commit at a leader**, after an order, an append answer or winning: the largest
//! index above commit whose entry has the current term and which a majority
//! matches; otherwise unchanged.

use crate::members::{place, BOXES};
use crate::record::{term_at, Node, Terms};

impl Node {
    pub(crate) fn settle(&mut self, terms: &Terms) {
        let mut matched = self.matched;
        matched[place(self.me)] = self.last;
        matched.sort_unstable();
        // Non-members stand at 0, so this is the largest that a majority
        // matches. Terms never fall: if its entry's term is an older one, so
        // are those of all entries below.
        let agreed = matched[BOXES - 1 - self.members.count_ones() as usize / 2];
        if agreed > self.commit && term_at(terms, agreed) == self.term {
            self.commit = agreed;
        }
    }
}

#[cfg(test)]
mod checks {
    use crate::checked_box::CheckedBox;
    use support::text::lines;

    #[test]
    fn a_leader_commits_its_own_term_only() {
        for (terms, commit) in [(&[1, 2][..], 1), (&[1, 2, 4], 3)] {
            let mut leader = CheckedBox::with_log(1, 0x1f, 4, terms).lead();
            leader.node.commit = 1;
            let last = terms.len();
            for from in [2, 3] {
                let answer = format!("01 04 0{from} 01 00000004 01 {last:04x}");
                assert_eq!(leader.receive(&lines(&[&answer])), 0);
                assert_eq!((&*leader.line, &*leader.messages), ("", ""));
            }
            assert_eq!(leader.node.commit, commit);
        }
    }
}
