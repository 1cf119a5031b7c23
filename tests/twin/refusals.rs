//! When the box says no: 01's numbers, and T-01's.

/// The bytes, or fields to be written, are not one frame.
pub const NOT_A_FRAME: u8 = 1;
/// Not to this box, from itself, or from a non-member.
pub const NOT_FOR_THIS_BOX: u8 = 2;
/// Order or prompt, not leader.
pub const NOT_LEADER: u8 = 3;
/// Order, log holds 256.
pub const LOG_FULL: u8 = 4;
/// The head, journal line or messages are longer than the room left.
pub const NO_ROOM: u8 = 5;
/// Alarm: append of the box's own term, and it leads.
pub const TWO_LEADERS: u8 = 6;
/// Alarm: an append would cut at or below commit.
pub const CUTS_COMMITTED: u8 = 7;
/// Alarm: an answer to a leader names an index past its log.
pub const PAST_THE_LOG: u8 = 8;
/// Timeout at a non-leader in the last term.
pub const LAST_TERM: u8 = 9;
/// Opening: a whole line after the head breaks a rule.
pub const BAD_LINE: u8 = 10;
/// Opening: no whole line, or the first is no proper head.
pub const NO_HEAD: u8 = 11;
/// Starting: bad box or mask; an event: the record breaks a rule.
pub const BAD_RECORD: u8 = 12;
/// Order of eight zero bytes: a client may not send the blank.
pub const BLANK_ORDER: u8 = 13;
