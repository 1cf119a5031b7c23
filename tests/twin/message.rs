//! The four messages, and 01's rules for their fields.

use crate::members::BOXES;
use crate::record::LONGEST_LOG;

const LAST_BOX: u8 = BOXES as u8;

/// Entries of an append or a journal line.
pub const MOST_ENTRIES: usize = 4;

#[derive(Clone, Copy, Debug, Default, PartialEq, Eq)]
pub struct Entry {
    pub term: u32,
    pub order: [u8; 8],
}

/// `yes` and `count` are the bytes as they stand in the frame, so that fields
/// which are no frame can be written down and refused.
#[derive(Clone, Copy, Debug, PartialEq, Eq)]
pub enum Message {
    VoteRequest {
        from: u8,
        to: u8,
        term: u32,
        last_index: u16,
        last_term: u32,
    },
    VoteAnswer {
        from: u8,
        to: u8,
        term: u32,
        yes: u8,
    },
    /// Entries past `count` are not part of the message.
    Append {
        from: u8,
        to: u8,
        term: u32,
        previous_index: u16,
        previous_term: u32,
        commit: u16,
        count: u8,
        entries: [Entry; MOST_ENTRIES],
    },
    AppendAnswer {
        from: u8,
        to: u8,
        term: u32,
        yes: u8,
        index: u16,
    },
}

impl Message {
    /// From, to and term, with which every frame starts.
    pub(crate) fn head(&self) -> (u8, u8, u32) {
        let (Message::VoteRequest { from, to, term, .. }
        | Message::VoteAnswer { from, to, term, .. }
        | Message::Append { from, to, term, .. }
        | Message::AppendAnswer { from, to, term, .. }) = *self;
        (from, to, term)
    }
}

/// Every rule of the paragraph under 01's table.
pub(crate) fn is_frame(m: &Message) -> bool {
    let head = |from: u8, to: u8, term: u32| {
        (1..=LAST_BOX).contains(&from) && (1..=LAST_BOX).contains(&to) && term >= 1
    };
    match *m {
        Message::VoteRequest {
            from,
            to,
            term,
            last_index,
            last_term,
        } => {
            head(from, to, term)
                && last_index <= LONGEST_LOG
                && (last_index == 0) == (last_term == 0)
                && last_term < term
        }
        Message::VoteAnswer {
            from,
            to,
            term,
            yes,
        } => head(from, to, term) && yes <= 1,
        Message::Append {
            from,
            to,
            term,
            previous_index,
            previous_term,
            commit,
            count,
            ref entries,
        } => {
            let Some(entries) = entries.get(..usize::from(count)) else {
                return false;
            };
            // Terms that never fall are all at most `term` if the last one is.
            let mut past = previous_term;
            let mut rising = true;
            for entry in entries {
                rising &= entry.term >= 1 && entry.term >= past;
                past = entry.term;
            }
            head(from, to, term)
                && previous_index <= LONGEST_LOG
                && previous_index + u16::from(count) <= LONGEST_LOG
                && (previous_index == 0) == (previous_term == 0)
                && commit <= LONGEST_LOG
                && rising
                && past <= term
        }
        Message::AppendAnswer {
            from,
            to,
            term,
            yes,
            index,
        } => head(from, to, term) && yes <= 1 && index <= LONGEST_LOG && (yes == 1 || index == 0),
    }
}
