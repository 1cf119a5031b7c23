//! A record as numbers, and every call on them, as the proved library's callers
//! make it.

use crate::members::BOXES;
use crate::opening::{self, Refusal};
use crate::record::{self, Node, Orders, Terms};
use crate::refusals::{BAD_LINE, BAD_RECORD, NO_HEAD};
use crate::step::Answer;

/// The flat form's numbers: me, members, term, vote, last, commit, role,
/// votes, then next and match of each box.
pub const NUMBERS: usize = 8 + 2 * BOXES;

pub type Numbers = [u64; NUMBERS];

#[inline(always)]
pub fn to_flat(node: &Node) -> Numbers {
    let mut numbers = [0; NUMBERS];
    numbers[..8].copy_from_slice(&[
        node.me.into(),
        node.members.into(),
        node.term.into(),
        node.vote.into(),
        node.last.into(),
        node.commit.into(),
        node.role.into(),
        node.votes.into(),
    ]);
    for (number, &index) in numbers[8..]
        .iter_mut()
        .zip(node.next.iter().chain(&node.matched))
    {
        *number = index.into();
    }
    numbers
}

/// None where a number does not fit its field: such a record breaks a rule.
#[inline(always)]
pub fn from_flat(numbers: &Numbers) -> Option<Node> {
    let &[me, members, term, vote, last, commit, role, votes, ref indexes @ ..] = numbers;
    let mut next = [0; BOXES];
    let mut matched = [0; BOXES];
    for (index, &number) in next.iter_mut().chain(&mut matched).zip(indexes) {
        *index = u16::try_from(number).ok()?;
    }
    Some(Node {
        me: u8::try_from(me).ok()?,
        members: u8::try_from(members).ok()?,
        term: u32::try_from(term).ok()?,
        vote: u8::try_from(vote).ok()?,
        last: u16::try_from(last).ok()?,
        commit: u16::try_from(commit).ok()?,
        role: u8::try_from(role).ok()?,
        votes: u8::try_from(votes).ok()?,
        next,
        matched,
    })
}

/// 0 with numbers and sizes (of the line, of the messages) written, or the
/// refusal with neither touched.
fn flat(numbers: &mut Numbers, sizes: &mut [u64; 2], event: impl FnOnce(Node) -> Answer) -> u8 {
    let Some(node) = from_flat(numbers) else {
        return BAD_RECORD;
    };
    match event(node) {
        Ok(step) => {
            *numbers = to_flat(&step.node);
            *sizes = [step.line as u64, step.messages as u64];
            0
        }
        Err(refusal) => refusal,
    }
}

/// The refusal and 256 times the bytes written.
pub fn start(me: u8, mask: u8, numbers: &mut Numbers, room: &mut [u8]) -> u64 {
    match crate::start(me, mask, room) {
        Ok((node, head)) => {
            *numbers = to_flat(&node);
            256 * head as u64
        }
        Err(refusal) => refusal.into(),
    }
}

pub fn timeout(
    numbers: &mut Numbers,
    terms: &mut Terms,
    orders: &mut Orders,
    journal: &mut [u8],
    room: &mut [u8],
    sizes: &mut [u64; 2],
) -> u8 {
    flat(numbers, sizes, |node| {
        node.timeout(terms, orders, journal, room)
    })
}

pub fn prompt(
    numbers: &mut Numbers,
    terms: &Terms,
    orders: &Orders,
    journal: &mut [u8],
    room: &mut [u8],
    sizes: &mut [u64; 2],
) -> u8 {
    flat(numbers, sizes, |node| {
        node.prompt(terms, orders, journal, room)
    })
}

pub fn order(
    order: u64,
    numbers: &mut Numbers,
    terms: &mut Terms,
    orders: &mut Orders,
    journal: &mut [u8],
    room: &mut [u8],
    sizes: &mut [u64; 2],
) -> u8 {
    flat(numbers, sizes, |node| {
        node.order(order, terms, orders, journal, room)
    })
}

pub fn receive(
    bytes: &[u8],
    numbers: &mut Numbers,
    terms: &mut Terms,
    orders: &mut Orders,
    journal: &mut [u8],
    room: &mut [u8],
    sizes: &mut [u64; 2],
) -> u8 {
    flat(numbers, sizes, |node| {
        node.receive(bytes, terms, orders, journal, room)
    })
}

pub fn handed_out(numbers: &Numbers, terms: &Terms, orders: &Orders, count: &mut u64) -> u8 {
    match from_flat(numbers).map(|node| record::handed_out(&node, terms, orders)) {
        Some(Ok(entries)) => {
            *count = entries.into();
            0
        }
        _ => BAD_RECORD,
    }
}

/// 0 with the record and the first of the sizes, 10 with the second of them, the
/// line's number, or 11.
pub fn open(
    me: u8,
    text: &[u8],
    numbers: &mut Numbers,
    terms: &mut Terms,
    orders: &mut Orders,
    sizes: &mut [u64; 2],
) -> u8 {
    match opening::open(me, text, terms, orders) {
        Ok((node, whole)) => {
            *numbers = to_flat(&node);
            sizes[0] = whole as u64;
            0
        }
        Err(Refusal::BadLine(number)) => {
            sizes[1] = number;
            BAD_LINE
        }
        Err(Refusal::NoHead) => NO_HEAD,
    }
}

/// 0, 10, or 12 where a number does not fit its field.
pub fn replay(text: &[u8], numbers: &mut Numbers, terms: &mut Terms, orders: &mut Orders) -> u8 {
    let Some(node) = from_flat(numbers) else {
        return BAD_RECORD;
    };
    match opening::replay(node, text, terms, orders) {
        Some(next) => {
            *numbers = to_flat(&next);
            0
        }
        None => BAD_LINE,
    }
}

#[cfg(test)]
mod checks {
    use super::*;
    use crate::checked_box::CheckedBox;

    #[test]
    fn numbers_that_do_not_fit() {
        let mut bench = CheckedBox::with_log(1, 0x7f, u32::MAX, &[7; 256]).lead();
        let numbers = to_flat(&bench.node);
        assert_eq!(from_flat(&numbers), Some(bench.node));
        for place in 0..NUMBERS {
            let width = [8, 8, 32, 8, 16, 16, 8, 8];
            let mut broken = numbers;
            broken[place] |= 1 << width.get(place).unwrap_or(&16);
            let before = broken;
            let mut sizes = [3; 2];
            let (terms, orders) = (&mut bench.terms, &mut bench.orders);
            let answer = timeout(&mut broken, terms, orders, &mut [], &mut [], &mut sizes);
            assert_eq!((answer, broken, sizes), (BAD_RECORD, before, [3; 2]));
        }
    }
}
