//! **Append answer** at a leader. Yes: match = the larger of match and the index
//! named; next = the larger of next and match + 1. No: next = the larger of next - 1
//! and match + 1. After a no, or when next is not past the last index, one append to
//! that box.

use crate::members::{bit, place};
use crate::record::{Node, Terms, LEADER};
use crate::refusals::PAST_THE_LOG;

impl Node {
    /// An answer of no lower term: the boxes that get an append.
    pub(crate) fn answered_append(
        &mut self,
        from: u8,
        yes: bool,
        index: u16,
        terms: &Terms,
    ) -> Result<u8, u8> {
        if self.role != LEADER {
            return Ok(0);
        }
        if index > self.last {
            return Err(PAST_THE_LOG);
        }
        let matched = &mut self.matched[place(from)];
        let next = &mut self.next[place(from)];
        if yes {
            *matched = index.max(*matched);
            *next = (*matched + 1).max(*next);
        } else {
            *next = (*next - 1).max(*matched + 1);
        }
        let sends = !yes || *next <= self.last;
        self.settle(terms);
        Ok(if sends { bit(from) } else { 0 })
    }
}

#[cfg(test)]
mod checks {
    use crate::checked_box::CheckedBox;
    use support::text::lines;

    #[test]
    fn a_leader_brings_a_box_up() {
        let mut leader = CheckedBox::with_log(1, 0x03, 3, &[1, 1, 2, 3]);
        assert_eq!(leader.timeout(), 0);
        assert_eq!(leader.receive(&lines(&["01 02 02 01 00000004 01"])), 0);
        let blank = "00000004 0000000000000000";
        let at_end = "01 03 01 02 00000004 0004 00000003 0000 01".to_owned() + blank;
        assert_eq!(leader.messages, lines(&[&at_end]));
        assert_eq!(leader.order(7), 0);

        // Next goes back to 4 by three noes; an old yes moves nothing back.
        let (older, ordered) = ("00000003 0000000000000000", "00000004 0000000000000007");
        let from_4 = "01 03 01 02 00000004 0003 00000002 0000 03".to_owned()
            + &[older, blank, ordered].concat();
        leader.node.next[1] = 7;
        for _ in 0..3 {
            assert_eq!(leader.receive(&lines(&["01 04 02 01 00000004 00 0000"])), 0);
        }
        assert_eq!(leader.messages, lines(&[&from_4]));
        for index in [3, 1] {
            let yes = format!("01 04 02 01 00000004 01 000{index}");
            assert_eq!(leader.receive(&lines(&[&yes])), 0);
            assert_eq!(leader.messages, lines(&[&from_4]));
            assert_eq!((leader.node.next[1], leader.node.matched[1]), (4, 3));
            assert_eq!(leader.node.commit, 0);
        }
        assert_eq!(leader.receive(&lines(&["01 04 02 01 00000004 01 0006"])), 0);
        assert_eq!((&*leader.messages, leader.node.commit), ("", 6));
    }
}
