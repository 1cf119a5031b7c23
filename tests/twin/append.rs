//! **Append.** A candidate becomes follower. If previous index is not 0 and the log
//! lacks an entry there with that term: no. Otherwise the search stops at the first
//! entry whose index holds another term: the log is cut there and the rest added.
//! Entries past the end are added. Without a conflict nothing is cut. Commit becomes
//! the larger of itself and the smaller of (leader's commit, previous index + count).
//! Answer yes with previous index + count.

use crate::message::{Entry, Message};
use crate::record::{term_at, Node, Terms, LEADER};
use crate::refusals::{CUTS_COMMITTED, TWO_LEADERS};

impl Node {
    /// An append of no lower term: the index that the answer names, or None for a
    /// no, and the entries to be added, which are the log's last ones then.
    pub(crate) fn appended<'a>(
        &mut self,
        previous_index: u16,
        previous_term: u32,
        commit: u16,
        entries: &'a [Entry],
        terms: &Terms,
    ) -> Result<(Option<u16>, &'a [Entry]), u8> {
        if self.role == LEADER {
            return Err(TWO_LEADERS);
        }
        self.follow();
        if previous_index > self.last || term_at(terms, previous_index) != previous_term {
            return Ok((None, &[]));
        }
        let end = previous_index + entries.len() as u16;
        let log = &terms[usize::from(previous_index)..usize::from(self.last)];
        let agreeing = entries.iter().zip(log).take_while(|(e, t)| e.term == **t);
        let agreed = agreeing.count();
        let added = &entries[agreed..];
        if !added.is_empty() {
            // The first of them comes right after those that agree.
            if previous_index + (agreed as u16) < self.commit {
                return Err(CUTS_COMMITTED);
            }
            self.last = end;
        }
        self.commit = self.commit.max(commit.min(end));
        Ok((Some(end), added))
    }

    /// Yes with the index, or no.
    pub(crate) fn append_answer(&self, to: u8, index: Option<u16>) -> Message {
        Message::AppendAnswer {
            from: self.me,
            to,
            term: self.term,
            yes: index.is_some().into(),
            index: index.unwrap_or(0),
        }
    }
}

#[cfg(test)]
mod checks {
    use super::*;
    use crate::checked_box::CheckedBox;
    use crate::record::FOLLOWER;
    use support::text::lines;

    /// The follower of 01's readings: term 4, log terms 1, 1, 2.
    fn reading_follower(commit: u16) -> CheckedBox {
        let mut follower = CheckedBox::with_log(1, 0x07, 4, &[1, 1, 2]);
        follower.node.commit = commit;
        follower
    }

    fn reading_append(entry_term: u32, commit: u16) -> String {
        let entry = format!("{entry_term:08x} 0123456789abcdef");
        let append = format!("01 03 02 01 00000004 0001 00000001 {commit:04x} 01 {entry}");
        lines(&[&append])
    }

    #[test]
    fn the_follower_appends() {
        let yes_to_2 = lines(&["01 04 01 02 00000004 01 0002"]);
        let mut follower = reading_follower(1);
        assert_eq!(follower.receive(&reading_append(1, 0)), 0);
        assert_eq!(follower.log(), [1, 1, 2]);
        assert_eq!(
            (&*follower.line, &follower.messages, follower.node.commit),
            ("", &yes_to_2, 1)
        );

        let mut follower = reading_follower(1);
        assert_eq!(follower.receive(&reading_append(3, 0)), 0);
        assert_eq!(follower.log(), [1, 3]);
        assert_eq!(follower.orders[1], 0x0123456789abcdef);
        assert_eq!(
            follower.line,
            lines(&["01 10 01 00000004 00 0001 01 00000003 0123456789abcdef"])
        );
        assert_eq!(
            (follower.messages, follower.node.commit),
            (yes_to_2.clone(), 1)
        );

        let mut follower = reading_follower(2);
        assert_eq!(follower.receive(&reading_append(3, 0)), CUTS_COMMITTED);

        let mut follower = reading_follower(1);
        assert_eq!(follower.receive(&reading_append(1, 9)), 0);
        assert_eq!(follower.node.commit, 2);
        assert_eq!((&*follower.line, follower.messages), ("", yes_to_2));
    }

    /// A leader's blank, or whatever else it is.
    #[test]
    fn zeros_are_an_order_like_another() {
        let mut follower = reading_follower(0);
        let entries = "00000002 0000000000000000 00000004 0000000000000000";
        let append = format!("01 03 02 01 00000004 0003 00000002 0005 02 {entries}");
        assert_eq!(follower.receive(&lines(&[&append])), 0);
        let line = format!("01 10 01 00000004 00 0003 02 {entries}");
        assert_eq!(follower.line, lines(&[&line]));
        assert_eq!(follower.messages, lines(&["01 04 01 02 00000004 01 0005"]));
        assert_eq!(
            (follower.log(), follower.node.commit),
            (&[1, 1, 2, 2, 4][..], 5)
        );
    }

    #[test]
    fn a_candidate_that_hears_of_a_leader() {
        let mut candidate = CheckedBox::with_log(1, 0x07, 4, &[1, 1, 2]);
        assert_eq!(candidate.timeout(), 0);
        let lacking = lines(&["01 03 02 01 00000005 0004 00000002 0000 00"]);
        assert_eq!(candidate.receive(&lacking), 0);
        assert_eq!(candidate.messages, lines(&["01 04 01 02 00000005 00 0000"]));
        let &Node {
            role, vote, votes, ..
        } = &candidate.node;
        assert_eq!((&*candidate.line, role, vote, votes), ("", FOLLOWER, 1, 0));
    }
}
