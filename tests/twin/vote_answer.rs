//! **Vote answer.** At a candidate a yes adds the sender; a majority wins. Otherwise
//! nothing.

use crate::members::{bit, majority};
use crate::record::{Node, CANDIDATE};

impl Node {
    /// An answer of no lower term: whether the box wins by it.
    pub(crate) fn answered_vote(&mut self, from: u8, yes: bool) -> bool {
        if self.role != CANDIDATE || !yes {
            return false;
        }
        self.votes |= bit(from);
        majority(self.votes, self.members)
    }
}
