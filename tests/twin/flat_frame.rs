//! A frame as numbers, as the proved library's callers hand it over.

use crate::frames;
use crate::message::{Entry, Message, MOST_ENTRIES};
use crate::refusals::NOT_A_FRAME;

/// The flat form's fields: kind, from, to, term, index, past, commit, yes,
/// count, then term and order of four entries. Index and past are the last or
/// previous index and term, or the index named; what a kind lacks is 0.
pub const FIELDS: usize = 17;

const FIRST_ENTRY: usize = FIELDS - 2 * MOST_ENTRIES;

#[inline(always)]
pub fn to_flat(m: &Message) -> [u64; FIELDS] {
    let mut fields = [0; FIELDS];
    let mut head = |kind: u64, from: u8, to: u8, term: u32| {
        fields[..4].copy_from_slice(&[kind, from.into(), to.into(), term.into()]);
    };
    match *m {
        Message::VoteRequest {
            from,
            to,
            term,
            last_index,
            last_term,
        } => {
            head(1, from, to, term);
            fields[4] = last_index.into();
            fields[5] = last_term.into();
        }
        Message::VoteAnswer {
            from,
            to,
            term,
            yes,
        } => {
            head(2, from, to, term);
            fields[7] = yes.into();
        }
        Message::Append {
            from,
            to,
            term,
            previous_index,
            previous_term,
            commit,
            count,
            ref entries,
        } => {
            head(3, from, to, term);
            fields[4] = previous_index.into();
            fields[5] = previous_term.into();
            fields[6] = commit.into();
            fields[8] = count.into();
            let pairs = fields[FIRST_ENTRY..].chunks_exact_mut(2);
            for (pair, entry) in pairs.zip(entries).take(count.into()) {
                pair[0] = entry.term.into();
                pair[1] = u64::from_be_bytes(entry.order);
            }
        }
        Message::AppendAnswer {
            from,
            to,
            term,
            yes,
            index,
        } => {
            head(4, from, to, term);
            fields[4] = index.into();
            fields[7] = yes.into();
        }
    }
    fields
}

/// None where the numbers fit no message: the writer refuses such fields.
#[inline(always)]
pub fn from_flat(fields: &[u64; FIELDS]) -> Option<Message> {
    let &[kind, from, to, term, index, past, commit, yes, count, ref pairs @ ..] = fields;
    let held = usize::try_from(count)
        .ok()
        .filter(|&held| held <= MOST_ENTRIES)?;
    let (pairs, lacking) = pairs.split_at(2 * held);
    if lacking.iter().any(|&field| field != 0) {
        return None;
    }
    let from = u8::try_from(from).ok()?;
    let to = u8::try_from(to).ok()?;
    let term = u32::try_from(term).ok()?;
    let index = u16::try_from(index).ok()?;
    let past = u32::try_from(past).ok()?;
    let commit = u16::try_from(commit).ok()?;
    let yes = u8::try_from(yes).ok()?;
    match kind {
        1 if (commit, yes, held) == (0, 0, 0) => Some(Message::VoteRequest {
            from,
            to,
            term,
            last_index: index,
            last_term: past,
        }),
        2 if (index, past, commit, held) == (0, 0, 0, 0) => Some(Message::VoteAnswer {
            from,
            to,
            term,
            yes,
        }),
        3 if yes == 0 => {
            let mut entries = [Entry::default(); MOST_ENTRIES];
            for (entry, pair) in entries.iter_mut().zip(pairs.chunks_exact(2)) {
                entry.term = u32::try_from(pair[0]).ok()?;
                entry.order = pair[1].to_be_bytes();
            }
            Some(Message::Append {
                from,
                to,
                term,
                previous_index: index,
                previous_term: past,
                commit,
                count: held as u8,
                entries,
            })
        }
        4 if (past, commit, held) == (0, 0, 0) => Some(Message::AppendAnswer {
            from,
            to,
            term,
            yes,
            index,
        }),
        _ => None,
    }
}

/// 0 and every field written, or 1 and none touched.
pub fn read(bytes: &[u8], fields: &mut [u64; FIELDS]) -> u8 {
    match frames::read(bytes) {
        Some(message) => {
            *fields = to_flat(&message);
            0
        }
        None => NOT_A_FRAME,
    }
}

/// 0, 1 or 5.
pub fn write(fields: &[u64; FIELDS], room: &mut [u8]) -> u8 {
    let Some(message) = from_flat(fields) else {
        return NOT_A_FRAME;
    };
    match frames::write(&message, room) {
        Ok(_) => 0,
        Err(refusal) => refusal,
    }
}

#[cfg(test)]
mod checks {
    use super::*;

    #[test]
    fn fields_that_a_kind_lacks_are_zero() {
        let fields = [2, 2, 1, 1, 0, 0, 0, 1, 0, 0, 0, 0, 0, 0, 0, 0, 0];
        let mut room = [0; 19];
        assert_eq!(write(&fields, &mut room), 0);
        for lacking in [4, 5, 6, 8, 9, 10, 11, 12, 13, 14, 15, 16] {
            let mut broken = fields;
            broken[lacking] = 1;
            assert_eq!(write(&broken, &mut room), NOT_A_FRAME);
        }
    }
}
