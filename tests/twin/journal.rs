//! Journal: head 01, 11, box, mask; then, for each step that changes the stored part
//! and no other, 01, 10, box, term 4, vote 1, kept 2, count 1, entries. Both written
//! and read, and the rules of a line over the record before it.

use crate::append_to::write_entries;
use crate::digits::{encode, Digits};
use crate::frames::ENTRY_TEXT;
use crate::members::{is_member, is_membership};
use crate::message::{Entry, MOST_ENTRIES};
use crate::record::{fresh, Node, Orders, Terms, LONGEST_LOG};

// Digits and line feed; of the line without its entries.
pub(crate) const HEAD_TEXT: usize = 2 * 4 + 1;
const LINE_TEXT: usize = 2 * 11 + 1;

/// A line with so many entries.
pub(crate) const fn line_text(count: usize) -> usize {
    LINE_TEXT + ENTRY_TEXT * count
}

/// The text has just the room.
pub(crate) fn write_head(me: u8, mask: u8, text: &mut [u8]) {
    encode([0x01, 0x11, me, mask], text);
    text[HEAD_TEXT - 1] = b'\n';
}

/// The fresh box that the head is of.
pub(crate) fn head(bytes: &[u8]) -> Option<Node> {
    let mut digits = Digits::of(bytes.strip_suffix(b"\n")?);
    let start = [digits.byte()?, digits.byte()?];
    let (me, mask) = (digits.byte()?, digits.byte()?);
    let proper = start == [0x01, 0x11] && digits.are_all() && is_membership(me, mask);
    proper.then(|| fresh(me, mask))
}

/// The same, if it is the one asked for.
pub(crate) fn head_of(me: u8, bytes: &[u8]) -> Option<Node> {
    head(bytes).filter(|node| node.me == me)
}

impl Node {
    /// The journal line of a step that kept so many entries; those past them
    /// were added.
    pub(crate) fn write_line(&self, kept: u16, terms: &Terms, orders: &Orders, journal: &mut [u8]) {
        let added = usize::from(kept)..usize::from(self.last);
        let count = added.len() as u8;
        let [t1, t2, t3, t4] = self.term.to_be_bytes();
        let [k1, k2] = kept.to_be_bytes();
        let fixed = [
            0x01, 0x10, self.me, t1, t2, t3, t4, self.vote, k1, k2, count,
        ];
        encode(fixed, journal);
        write_entries(added, terms, orders, &mut journal[LINE_TEXT - 1..]);
    }
}

/// A journal line's fields; entries past `count` are not part of it.
pub(crate) struct Line {
    me: u8,
    pub(crate) term: u32,
    pub(crate) vote: u8,
    pub(crate) kept: u16,
    pub(crate) count: u8,
    entries: [Entry; MOST_ENTRIES],
}

impl Line {
    /// The line that the bytes spell, whatever its fields; its line feed
    /// belongs to it.
    pub(crate) fn read(bytes: &[u8]) -> Option<Line> {
        let mut digits = Digits::of(bytes.strip_suffix(b"\n")?);
        let start = [digits.byte()?, digits.byte()?];
        let mut line = Line {
            me: digits.byte()?,
            term: digits.term()?,
            vote: digits.byte()?,
            kept: digits.index()?,
            count: digits.byte()?,
            entries: Default::default(),
        };
        for entry in line.entries.get_mut(..usize::from(line.count))? {
            entry.term = digits.term()?;
            entry.order = digits.order()?;
        }
        (start == [0x01, 0x10] && digits.are_all()).then_some(line)
    }

    pub(crate) fn entries(&self) -> &[Entry] {
        &self.entries[..usize::from(self.count)]
    }

    /// Kept is at most the length, kept + count at most 256.
    pub(crate) fn fits(&self, node: &Node) -> bool {
        self.kept <= node.last
            && usize::from(self.kept) + usize::from(self.count) <= usize::from(LONGEST_LOG)
    }

    /// Not below the record's term, for nobody or a member, and not another
    /// vote within a term that has one.
    pub(crate) fn follows(&self, node: &Node) -> bool {
        let free = self.term > node.term || node.vote == 0 || self.vote == node.vote;
        self.me == node.me
            && self.term >= node.term.max(1)
            && (self.vote == 0 || is_member(self.vote, node.members))
            && free
    }

    /// The rule of a frame's entries, after this term.
    pub(crate) fn in_order(&self, previous: u32) -> bool {
        let mut past = previous;
        let mut rising = true;
        for entry in self.entries() {
            rising &= entry.term >= 1 && entry.term >= past;
            past = entry.term;
        }
        // Terms that never fall are all at most the line's if the last one is.
        rising && past <= self.term
    }
}
