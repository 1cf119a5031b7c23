//! **Order** (leader). Entry with the current term, then an append to each other
//! member. A client order of eight zeros is refused, after 3 and before 4.

use crate::journal::line_text;
use crate::record::{Node, Orders, Terms, LEADER, LONGEST_LOG};
use crate::refusals::{BLANK_ORDER, LOG_FULL, NOT_LEADER};
use crate::step::{Answer, Step};
use crate::winning::BLANK;

impl Node {
    pub fn order(
        self,
        order: u64,
        terms: &mut Terms,
        orders: &mut Orders,
        journal: &mut [u8],
        room: &mut [u8],
    ) -> Answer {
        self.check(terms)?;
        self.ordered(order, terms, orders, journal, room)
    }

    /// The same for a record known to be good.
    pub(crate) fn ordered(
        mut self,
        order: u64,
        terms: &mut Terms,
        orders: &mut Orders,
        journal: &mut [u8],
        room: &mut [u8],
    ) -> Answer {
        if self.role != LEADER {
            return Err(NOT_LEADER);
        }
        if order.to_be_bytes() == BLANK {
            return Err(BLANK_ORDER);
        }
        if self.last == LONGEST_LOG {
            return Err(LOG_FULL);
        }
        let kept = self.last;
        self.last += 1;
        // Lengths do not depend on commit, which needs the entry.
        let length = self.appends_length(self.others());
        let step = self.fit(line_text(1), length, journal, room)?;
        terms[usize::from(kept)] = self.term;
        orders[usize::from(kept)] = order;
        self.settle(terms);
        self.write_line(kept, terms, orders, journal);
        self.write_appends(self.others(), terms, orders, room);
        Ok(Step { node: self, ..step })
    }
}

#[cfg(test)]
mod checks {
    use super::*;
    use crate::checked_box::CheckedBox;
    use crate::refusals::BAD_RECORD;

    #[test]
    fn logs_of_255_and_256() {
        let mut leader = CheckedBox::with_log(1, 0x07, 4, &[2; 255]).lead();
        assert_eq!(leader.order(u64::MAX), 0);
        assert_eq!(leader.node.last, 256);
        assert_eq!(leader.order(u64::MAX), LOG_FULL);
        assert_eq!(leader.prompt(), 0);
        leader.node.follow();
        assert_eq!(leader.order(u64::MAX), NOT_LEADER);
    }

    /// Checked in the order 12, 3, 13, 4.
    #[test]
    fn zeros() {
        for length in [0, 255, 256] {
            let mut bench = CheckedBox::with_log(1, 0x07, 4, &vec![2; length]);
            assert_eq!(bench.order(0), NOT_LEADER);
            assert_eq!(bench.timeout(), 0);
            assert_eq!(bench.order(0), NOT_LEADER);
            bench = bench.lead();
            assert_eq!(bench.order(0), BLANK_ORDER);
            for order in [1, 1 << 56, 1 << 63] {
                let full = bench.node.last == LONGEST_LOG;
                assert_eq!(bench.order(order), if full { LOG_FULL } else { 0 });
            }
            bench.node.commit = bench.node.last + 1;
            assert_eq!(bench.order(0), BAD_RECORD);
        }
    }
}
