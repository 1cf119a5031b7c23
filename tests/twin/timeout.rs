//! **Timeout.** Leader: nothing. Otherwise term + 1, candidate, vote and votes =
//! itself, vote request to every other member. A majority already (one member): it
//! leads at once, and its journal line has the blank too.

use crate::frames::VOTE_REQUEST_TEXT;
use crate::journal::line_text;
use crate::members::{bit, majority};
use crate::record::{store, Node, Orders, Terms, CANDIDATE, LEADER};
use crate::refusals::LAST_TERM;
use crate::step::{Answer, Step};

impl Node {
    pub fn timeout(
        self,
        terms: &mut Terms,
        orders: &mut Orders,
        journal: &mut [u8],
        room: &mut [u8],
    ) -> Answer {
        self.check(terms)?;
        self.timed_out(terms, orders, journal, room)
    }

    /// The same for a record known to be good: a box that was started and has only
    /// taken steps since need not look at its whole log at each of them.
    pub(crate) fn timed_out(
        mut self,
        terms: &mut Terms,
        orders: &mut Orders,
        journal: &mut [u8],
        room: &mut [u8],
    ) -> Answer {
        if self.role == LEADER {
            return self.fit(0, 0, journal, room);
        }
        self.term = self.term.checked_add(1).ok_or(LAST_TERM)?;
        self.role = CANDIDATE;
        self.vote = self.me;
        self.votes = bit(self.me);
        let kept = self.last;
        // Who has a majority already is alone and has nobody to send to.
        let wins = majority(self.votes, self.members);
        let blank = if wins { self.win() } else { None };
        let length = VOTE_REQUEST_TEXT * self.others().count_ones() as usize;
        let step = self.fit(line_text(blank.iter().len()), length, journal, room)?;
        if let Some(entry) = blank {
            store(entry, kept, terms, orders);
        }
        if wins {
            self.settle(terms);
        }
        self.write_line(kept, terms, orders, journal);
        self.write_vote_requests(terms, room);
        Ok(Step { node: self, ..step })
    }
}

#[cfg(test)]
mod checks {
    use super::*;
    use crate::checked_box::CheckedBox;
    use crate::refusals::NOT_FOR_THIS_BOX;
    use support::text::lines;

    #[test]
    fn one_member() {
        let mut alone = CheckedBox::new(3, 0x04);
        assert_eq!(alone.timeout(), 0);
        assert_eq!(
            alone.line,
            lines(&["01 10 03 00000001 03 0000 01 00000001 0000000000000000"])
        );
        assert_eq!((&*alone.messages, alone.node.role), ("", LEADER));
        assert_eq!((alone.log(), alone.node.commit), (&[1][..], 1));
        assert_eq!(alone.order(5), 0);
        assert_eq!((&*alone.messages, alone.node.commit), ("", 2));
        assert_eq!((alone.prompt(), &*alone.line), (0, ""));
        let request = lines(&["01 01 01 03 00000009 0000 00000000"]);
        assert_eq!(alone.receive(&request), NOT_FOR_THIS_BOX);
    }

    /// The blank commits what is older; a full log takes none, and nothing commits.
    #[test]
    fn one_member_with_older_entries() {
        for (length, entries, last, commit) in [(2, 1, 3, 3), (255, 1, 256, 256), (256, 0, 256, 0)]
        {
            let mut alone = CheckedBox::with_log(3, 0x04, 6, &vec![5; length]);
            alone.orders.fill(u64::MAX);
            assert_eq!(alone.timeout(), 0);
            let blank = ["", "00000007 0000000000000000"][entries];
            let line = format!("01 10 03 00000007 03 {length:04x} 0{entries} {blank}");
            assert_eq!((&alone.line, &*alone.messages), (&lines(&[&line]), ""));
            assert_eq!((alone.node.last, alone.node.commit), (last, commit));
            let zeros = alone.orders.iter().filter(|order| **order == 0).count();
            assert_eq!((zeros, alone.orders[length - 1]), (entries, u64::MAX));
        }
    }

    #[test]
    fn the_last_term() {
        let mut bench = CheckedBox::with_log(1, 0x07, u32::MAX - 1, &[1]);
        assert_eq!(bench.timeout(), 0);
        assert_eq!(bench.timeout(), LAST_TERM);
        bench = bench.lead();
        bench.node.votes = 0;
        assert_eq!((bench.timeout(), &*bench.line), (0, ""));
    }
}
