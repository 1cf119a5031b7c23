//! **Winning.** If the log has room, an entry of the new term with an order of eight
//! zero bytes is added before the first appends; with a full log none. Next for the
//! others is the blank's index, match = 0; one append to each. The leader counts as
//! matching its own last index.

use crate::members::{boxes, place};
use crate::message::Entry;
use crate::record::{Node, LEADER, LONGEST_LOG};

/// The order of an entry that no client has sent.
pub const BLANK: [u8; 8] = [0; 8];

impl Node {
    /// The entry to be added, which is the log's last one then. Whoever calls this
    /// stores it, settles commit and writes the appends.
    pub(crate) fn win(&mut self) -> Option<Entry> {
        self.role = LEADER;
        self.votes = 0;
        for number in boxes(self.others()) {
            self.next[place(number)] = self.last + 1;
        }
        if self.last == LONGEST_LOG {
            return None;
        }
        self.last += 1;
        Some(Entry {
            term: self.term,
            order: BLANK,
        })
    }
}

#[cfg(test)]
mod checks {
    use super::*;
    use crate::checked_box::CheckedBox;
    use crate::refusals::{BLANK_ORDER, LOG_FULL};
    use support::text::lines;

    const YES_FROM_2: &str = "010202010000000501\n";

    /// Box 1 of three in term 5, one vote away from winning.
    fn candidate(length: usize) -> CheckedBox {
        let mut candidate = CheckedBox::with_log(1, 0x07, 4, &vec![3; length]);
        candidate.orders.fill(u64::MAX);
        candidate.node.commit = 2;
        assert_eq!(candidate.timeout(), 0);
        candidate
    }

    #[test]
    fn the_first_appends_carry_the_blank() {
        for length in [2, 7, 254, 255] {
            let mut winner = candidate(length);
            assert_eq!(winner.receive(YES_FROM_2), 0);
            let entry = "00000005 0000000000000000";
            let line = format!("01 10 01 00000005 01 {length:04x} 01 {entry}");
            assert_eq!(winner.line, lines(&[&line]));
            let append =
                |to: u8| format!("01 03 01 0{to} 00000005 {length:04x} 00000003 0002 01 {entry}");
            assert_eq!(winner.messages, lines(&[&append(2), &append(3)]));

            let index = length as u16 + 1;
            let Node {
                role,
                votes,
                last,
                commit,
                next,
                matched,
                ..
            } = winner.node;
            assert_eq!((role, votes, last, commit), (LEADER, 0, index, 2));
            assert_eq!(next, [0, index, index, 0, 0, 0, 0]);
            assert_eq!(matched, [0; 7]);
            assert_eq!(winner.orders[length - 1..=length], [u64::MAX, 0]);
            let full = index == LONGEST_LOG;
            assert_eq!(winner.order(9), if full { LOG_FULL } else { 0 });
        }
    }

    #[test]
    fn a_full_log_takes_no_blank() {
        let mut winner = candidate(256);
        assert_eq!(winner.receive(YES_FROM_2), 0);
        assert_eq!(winner.line, "");
        let append = |to: u8| format!("01 03 01 0{to} 00000005 0100 00000003 0002 00");
        assert_eq!(winner.messages, lines(&[&append(2), &append(3)]));
        assert_eq!((winner.node.role, winner.node.last), (LEADER, 256));
        assert_eq!(winner.node.next, [0, 257, 257, 0, 0, 0, 0]);
        assert!(winner.orders.iter().all(|&order| order == u64::MAX));
        assert_eq!((winner.order(0), winner.order(9)), (BLANK_ORDER, LOG_FULL));
    }

    /// Hands a box's messages to the boxes that they are for, and the answers back.
    fn exchange(park: &mut [CheckedBox], from: usize) {
        let sent = park[from].messages.clone();
        for frame in sent.split_inclusive('\n') {
            let to = park
                .iter()
                .position(|one| frame[6..8] == format!("0{}", one.node.me));
            let Some(to) = to else { continue };
            assert_eq!(park[to].receive(frame), 0);
            let answer = park[to].messages.clone();
            assert_eq!(park[from].receive(&answer), 0);
        }
    }

    /// An order that two of three boxes hold, and whose leader is gone before it
    /// commits, stood still until a new order came.
    #[test]
    fn an_older_order_commits_without_a_new_one() {
        let mut two = [2, 3].map(|number| {
            let mut one = CheckedBox::with_log(number, 0x07, 1, &[1, 1]);
            one.orders[..2].copy_from_slice(&[0, 0x0123456789abcdef]);
            one
        });
        two[1].node.last = 1;
        assert_eq!(two[0].timeout(), 0);
        exchange(&mut two, 0);
        assert_eq!((two[0].node.role, two[0].log()), (LEADER, &[1, 1, 2][..]));
        assert_eq!(two[0].node.commit, 0);
        while two[0].node.commit < 3 || two[1].node.commit < 3 {
            assert_eq!(two[0].prompt(), 0);
            exchange(&mut two, 0);
        }
        for one in &two {
            assert_eq!(one.orders[..3], [0, 0x0123456789abcdef, 0]);
        }
    }
}
