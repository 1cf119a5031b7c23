//! A box's record as numbers, and what is lent with it: what every call of the
//! library takes.

pub const NUMBERS: usize = 22;

// The places of a box's numbers; box i has the place i - 1 after the last two.
pub const ME: usize = 0;
pub const MEMBERS: usize = 1;
pub const TERM: usize = 2;
pub const VOTE: usize = 3;
pub const LAST: usize = 4;
pub const COMMIT: usize = 5;
pub const ROLE: usize = 6;
pub const VOTES: usize = 7;
pub const NEXT: usize = 8;
pub const MATCH: usize = 15;

pub const FOLLOWER: u64 = 0;
pub const CANDIDATE: u64 = 1;
pub const LEADER: u64 = 2;

pub type Numbers = [u64; NUMBERS];
pub type Terms = [u32; 256];
pub type Orders = [u64; 256];
/// Bytes of the journal line and of the messages; of an opening the bytes of
/// the whole lines, or the number of the bad one.
pub type Sizes = [u64; 2];
