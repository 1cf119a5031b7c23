//! Frames: a message's bytes as 01 writes them, read and written.

use crate::digits::{encode, Digits};
use crate::message::{is_frame, Entry, Message, MOST_ENTRIES};
use crate::refusals::{NOT_A_FRAME, NO_ROOM};

/// Bytes of each kind's fixed part, from 01's table, and of an entry.
const VOTE_REQUEST: usize = 14;
const VOTE_ANSWER: usize = 9;
const APPEND: usize = 17;
const APPEND_ANSWER: usize = 11;
const ENTRY: usize = 12;

/// Digits and line feed of a frame of so many bytes.
const fn text(bytes: usize) -> usize {
    2 * bytes + 1
}

// The same as texts; of an append without its entries.
pub(crate) const VOTE_REQUEST_TEXT: usize = text(VOTE_REQUEST);
pub(crate) const VOTE_ANSWER_TEXT: usize = text(VOTE_ANSWER);
pub(crate) const APPEND_TEXT: usize = text(APPEND);
pub(crate) const APPEND_ANSWER_TEXT: usize = text(APPEND_ANSWER);
pub(crate) const ENTRY_TEXT: usize = 2 * ENTRY;

/// Digits and line feed of the longest frame.
pub const LONGEST_TEXT: usize = APPEND_TEXT + ENTRY_TEXT * MOST_ENTRIES;

// Both are inlined: a message that is taken apart at once need not be put together.

/// The message, exactly when the bytes are one frame, its line feed included.
#[inline(always)]
pub fn read(bytes: &[u8]) -> Option<Message> {
    let text = bytes.strip_suffix(b"\n")?;
    let mut digits = Digits::of(text);
    let (version, kind) = (digits.byte()?, digits.byte()?);
    let (from, to, term) = (digits.byte()?, digits.byte()?, digits.term()?);
    if version != 1 {
        return None;
    }
    let message = match kind {
        1 => Message::VoteRequest {
            from,
            to,
            term,
            last_index: digits.index()?,
            last_term: digits.term()?,
        },
        2 => Message::VoteAnswer {
            from,
            to,
            term,
            yes: digits.byte()?,
        },
        3 => {
            let previous_index = digits.index()?;
            let previous_term = digits.term()?;
            let commit = digits.index()?;
            let count = digits.byte()?;
            let mut entries = [Entry::default(); MOST_ENTRIES];
            for entry in entries.get_mut(..usize::from(count))? {
                *entry = Entry {
                    term: digits.term()?,
                    order: digits.order()?,
                };
            }
            Message::Append {
                from,
                to,
                term,
                previous_index,
                previous_term,
                commit,
                count,
                entries,
            }
        }
        4 => Message::AppendAnswer {
            from,
            to,
            term,
            yes: digits.byte()?,
            index: digits.index()?,
        },
        _ => return None,
    };
    (digits.are_all() && is_frame(&message)).then_some(message)
}

/// Writes the frame with its line feed and gives its length; on a refusal the
/// room is as before, and bytes past the frame always are.
#[inline(always)]
pub fn write(m: &Message, room: &mut [u8]) -> Result<usize, u8> {
    if !is_frame(m) {
        return Err(NOT_A_FRAME);
    }
    let length = match *m {
        Message::VoteRequest { .. } => VOTE_REQUEST,
        Message::VoteAnswer { .. } => VOTE_ANSWER,
        Message::Append { count, .. } => APPEND + ENTRY * usize::from(count),
        Message::AppendAnswer { .. } => APPEND_ANSWER,
    };
    let text = room.get_mut(..text(length)).ok_or(NO_ROOM)?;
    text[2 * length] = b'\n';
    match *m {
        Message::VoteRequest {
            from,
            to,
            term,
            last_index,
            last_term,
        } => {
            let [t1, t2, t3, t4] = term.to_be_bytes();
            let [i1, i2] = last_index.to_be_bytes();
            let [p1, p2, p3, p4] = last_term.to_be_bytes();
            encode(
                [1, 1, from, to, t1, t2, t3, t4, i1, i2, p1, p2, p3, p4],
                text,
            );
        }
        Message::VoteAnswer {
            from,
            to,
            term,
            yes,
        } => {
            let [t1, t2, t3, t4] = term.to_be_bytes();
            encode([1, 2, from, to, t1, t2, t3, t4, yes], text);
        }
        Message::Append {
            from,
            to,
            term,
            previous_index,
            previous_term,
            commit,
            count,
            ref entries,
        } => {
            let [t1, t2, t3, t4] = term.to_be_bytes();
            let [i1, i2] = previous_index.to_be_bytes();
            let [p1, p2, p3, p4] = previous_term.to_be_bytes();
            let [c1, c2] = commit.to_be_bytes();
            let fixed = [
                1, 3, from, to, t1, t2, t3, t4, i1, i2, p1, p2, p3, p4, c1, c2, count,
            ];
            encode(fixed, text);
            for (part, entry) in text[2 * APPEND..].chunks_exact_mut(2 * ENTRY).zip(entries) {
                encode(entry.term.to_be_bytes(), part);
                encode(entry.order, &mut part[8..]);
            }
        }
        Message::AppendAnswer {
            from,
            to,
            term,
            yes,
            index,
        } => {
            let [t1, t2, t3, t4] = term.to_be_bytes();
            let [i1, i2] = index.to_be_bytes();
            encode([1, 4, from, to, t1, t2, t3, t4, yes, i1, i2], text);
        }
    }
    Ok(text.len())
}

#[cfg(test)]
mod checks {
    use super::*;
    use crate::flat_frame::{from_flat, to_flat};

    /// Reads, writes and goes through the flat form, and comes back each time.
    fn same(text: &[u8], message: Message) {
        assert_eq!(read(text), Some(message));
        let mut room = [b'#'; LONGEST_TEXT + 1];
        assert_eq!(write(&message, &mut room), Ok(text.len()));
        assert_eq!(&room[..text.len()], text);
        assert!(room[text.len()..].iter().all(|&byte| byte == b'#'));
        assert_eq!(from_flat(&to_flat(&message)), Some(message));
    }

    #[test]
    fn vote_requests_after_the_timeout() {
        for to in [2, 3] {
            same(
                format!("0101010{to}00000001000000000000\n").as_bytes(),
                Message::VoteRequest {
                    from: 1,
                    to,
                    term: 1,
                    last_index: 0,
                    last_term: 0,
                },
            );
        }
    }

    #[test]
    fn box_2_says_yes() {
        same(
            b"010202010000000101\n",
            Message::VoteAnswer {
                from: 2,
                to: 1,
                term: 1,
                yes: 1,
            },
        );
    }

    #[test]
    fn yes_from_2_to_index_1() {
        same(
            b"0104020100000001010001\n",
            Message::AppendAnswer {
                from: 2,
                to: 1,
                term: 1,
                yes: 1,
                index: 1,
            },
        );
    }

    #[test]
    fn an_append_of_two() {
        let mut entries = [Entry::default(); MOST_ENTRIES];
        entries[0] = Entry {
            term: 2,
            order: *b"\x00\x01\x02\x03\x04\x05\x06\x07",
        };
        entries[1] = Entry {
            term: 3,
            order: [0xff; 8],
        };
        let message = Message::Append {
            from: 1,
            to: 7,
            term: 4,
            previous_index: 254,
            previous_term: 2,
            commit: 256,
            count: 2,
            entries,
        };
        same(
            b"010301070000000400fe000000020100020000000200010203040506070000\
              0003ffffffffffffffff\n",
            message,
        );
        assert_eq!(
            to_flat(&message),
            [
                3,
                1,
                7,
                4,
                254,
                2,
                256,
                0,
                2,
                2,
                0x0001020304050607,
                3,
                u64::MAX,
                0,
                0,
                0,
                0
            ]
        );
    }

    #[test]
    fn a_digit_in_upper_case() {
        assert!(read(b"0102020100000a0101\n").is_some());
        assert!(read(b"0102020100000A0101\n").is_none());
    }

    #[test]
    fn the_journal_lines_are_no_frames() {
        assert!(read(b"01110107\n").is_none());
        assert!(read(b"0110010000000101000000\n").is_none());
    }

    #[test]
    fn a_bad_field_comes_before_a_short_room() {
        let good = Message::VoteAnswer {
            from: 2,
            to: 1,
            term: 1,
            yes: 1,
        };
        let bad = Message::VoteAnswer {
            from: 2,
            to: 1,
            term: 0,
            yes: 1,
        };
        let mut room = [b'#'; 18];
        assert_eq!(write(&bad, &mut room), Err(NOT_A_FRAME));
        assert_eq!(write(&good, &mut room), Err(NO_ROOM));
        assert_eq!(room, [b'#'; 18]);
    }
}
