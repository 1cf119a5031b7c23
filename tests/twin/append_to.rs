//! **Append to j.** Previous index = next - 1 with its term (0, 0 at the start), up
//! to 4 entries from next on, the leader's commit.
//!
//! A good record's messages are frames and need no second look; their room was
//! looked at before.

use std::ops::Range;

use crate::digits::encode;
use crate::frames::{APPEND_TEXT, ENTRY_TEXT};
use crate::members::{boxes, place};
use crate::message::MOST_ENTRIES;
use crate::record::{term_at, Node, Orders, Terms};

impl Node {
    /// How many entries an append to this box carries.
    fn carried(&self, to: u8) -> u8 {
        (self.last + 1 - self.next[place(to)]).min(MOST_ENTRIES as u16) as u8
    }

    pub(crate) fn appends_length(&self, to: u8) -> usize {
        boxes(to)
            .map(|number| APPEND_TEXT + ENTRY_TEXT * usize::from(self.carried(number)))
            .sum()
    }

    /// An append to each box of the mask.
    pub(crate) fn write_appends(&self, to: u8, terms: &Terms, orders: &Orders, room: &mut [u8]) {
        let [t1, t2, t3, t4] = self.term.to_be_bytes();
        let [c1, c2] = self.commit.to_be_bytes();
        let mut left = room;
        for number in boxes(to) {
            let previous = self.next[place(number)] - 1;
            let count = self.carried(number);
            let [i1, i2] = previous.to_be_bytes();
            let [p1, p2, p3, p4] = term_at(terms, previous).to_be_bytes();
            let fixed = [
                1, 3, self.me, number, t1, t2, t3, t4, i1, i2, p1, p2, p3, p4, c1, c2, count,
            ];
            let start = usize::from(previous);
            let entries = start..start + usize::from(count);
            let (text, rest) = left.split_at_mut(APPEND_TEXT + ENTRY_TEXT * entries.len());
            encode(fixed, text);
            write_entries(entries, terms, orders, &mut text[APPEND_TEXT - 1..]);
            left = rest;
        }
    }
}

/// The entries at these places, and the line feed: the end of an append and of a
/// journal line.
pub(crate) fn write_entries(places: Range<usize>, terms: &Terms, orders: &Orders, text: &mut [u8]) {
    let end = ENTRY_TEXT * places.len();
    let log = terms[places.clone()].iter().zip(&orders[places]);
    for (part, (term, order)) in text.chunks_exact_mut(ENTRY_TEXT).zip(log) {
        encode(term.to_be_bytes(), part);
        encode(order.to_be_bytes(), &mut part[8..]);
    }
    text[end] = b'\n';
}
