//! What an event comes to: a step with what it wrote, or a refusal.

use crate::record::Node;
use crate::refusals::NO_ROOM;

/// The next node, and how many bytes of line and messages were written.
#[derive(Clone, Copy, Debug, PartialEq, Eq)]
pub struct Step {
    pub node: Node,
    pub line: usize,
    pub messages: usize,
}

/// A step, or the number of the refusal, which has touched nothing.
pub type Answer = Result<Step, u8>;

impl Node {
    /// The step to this node, if what it writes has room.
    pub(crate) fn fit(self, line: usize, messages: usize, journal: &[u8], room: &[u8]) -> Answer {
        if line > journal.len() || messages > room.len() {
            return Err(NO_ROOM);
        }
        Ok(Step {
            node: self,
            line,
            messages,
        })
    }
}
