//! The box of 01 a second time, in plain Rust, from the text of 01 and of the
//! requests alone: what the proved box is compared with and measured against. It
//! stands on nothing but the standard library; its checks draw from `support`'s
//! random numbers.

// The box's record, and when the box says no.
pub mod members;
pub mod record;
pub mod refusals;

// What each event does, a paragraph of 01 a file.
mod any_message;
mod append;
mod append_answer;
mod append_to;
mod commit;
mod order;
mod prompt;
mod start;
pub mod step;
mod timeout;
mod vote_answer;
mod vote_request;
mod winning;

// Frames and journal lines.
mod digits;
pub mod frames;
mod journal;
pub mod message;
pub mod opening;

// The two programs.
pub mod lines;
pub mod replay;
pub mod session;

// The same on numbers, for the comparison with the proved library.
pub mod flat_frame;
pub mod flat_record;

#[cfg(test)]
mod boxes_together;
#[cfg(test)]
mod checked_box;

pub use start::start;
