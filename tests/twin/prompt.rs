//! **Prompt** (leader): an append to each.

use crate::record::{Node, Orders, Terms, LEADER};
use crate::refusals::NOT_LEADER;
use crate::step::Answer;

impl Node {
    pub fn prompt(
        self,
        terms: &Terms,
        orders: &Orders,
        journal: &mut [u8],
        room: &mut [u8],
    ) -> Answer {
        self.check(terms)?;
        self.prompted(terms, orders, journal, room)
    }

    /// The same for a record known to be good.
    pub(crate) fn prompted(
        self,
        terms: &Terms,
        orders: &Orders,
        journal: &mut [u8],
        room: &mut [u8],
    ) -> Answer {
        if self.role != LEADER {
            return Err(NOT_LEADER);
        }
        let others = self.others();
        let step = self.fit(0, self.appends_length(others), journal, room)?;
        self.write_appends(others, terms, orders, room);
        Ok(step)
    }
}
