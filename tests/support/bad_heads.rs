//! Every way in which a journal's first line is no proper head.

use crate::broken_lines::{no_digit, one_of, others_than, with_byte};
use crate::journal_lines::{self, head, Stored};
use crate::random::Random;
use crate::records::{bit, boxes};

/// The box asked for and the first line, of a box and its mask; the rest of the
/// journal follows. None where they do not allow it.
type Head = fn(&mut Random, u64, u64) -> Option<(u64, Vec<u8>)>;

/// The head with a byte of it changed.
fn changed(me: u64, mask: u64, place: usize, byte: u64) -> Option<(u64, Vec<u8>)> {
    Some((me, with_byte(head(me, mask), place, byte)))
}

pub static HEADS: [(&str, Head); 25] = [
    ("head_of_another", |r, me, mask| {
        let asked = one_of(r, others_than(me, boxes(0x7f)))?;
        Some((asked, head(me, mask)))
    }),
    ("head_asked_for_0", |_, me, mask| Some((0, head(me, mask)))),
    ("head_asked_for_8", |_, me, mask| Some((8, head(me, mask)))),
    ("head_asked_for_255", |_, me, mask| {
        Some((255, head(me, mask)))
    }),
    ("head_asked_for_none", |r, me, mask| {
        let any = r.between(8, 255);
        let asked = r.of(&[me + 8, me + 128, any]);
        Some((asked, head(me, mask)))
    }),
    ("head_of_box_0", |r, _, mask| {
        Some((0, head(0, r.of(&[0, mask, 0xff]))))
    }),
    ("head_of_box_8", |r, _, mask| {
        Some((8, head(8, r.of(&[0x80, mask, mask | 0x80, 0xff]))))
    }),
    ("head_of_box_255", |r, _, mask| {
        Some((255, head(255, r.of(&[0x80, mask, 0xff]))))
    }),
    ("head_of_no_box", |r, me, mask| {
        let none = r.of(&[me + 8, me + 32, me + 64, me + 128]);
        Some((none, head(none, mask)))
    }),
    ("head_mask_0", |_, me, _| Some((me, head(me, 0)))),
    ("head_mask_bit_7", |_, me, mask| {
        Some((me, head(me, mask | 0x80)))
    }),
    ("head_mask_without_itself", |_, me, mask| {
        let others = mask & !bit(me);
        (others != 0).then(|| (me, head(me, others)))
    }),
    ("head_version", |r, me, mask| {
        changed(me, mask, 0, r.of(&[0x00, 0x02, 0x11, 0xff]))
    }),
    ("head_kind", |r, me, mask| {
        changed(me, mask, 1, r.of(&[0x00, 0x01, 0x10, 0x12, 0x91]))
    }),
    ("head_no_digit", |r, me, mask| {
        let mut text = head(me, mask);
        text[r.below(8)] = no_digit(r);
        Some((me, text))
    }),
    // With a letter in it.
    ("head_upper_case", |_, me, mask| {
        Some((me, head(me, mask | 0x0f).to_ascii_uppercase()))
    }),
    ("head_one_digit_more", |r, me, mask| {
        let mut text = head(me, mask);
        text.insert(r.below(9), b'0');
        Some((me, text))
    }),
    ("head_bytes_more", |r, me, mask| {
        let mut text = head(me, mask);
        let more = r.of(&[2, 4, 14, 256, 0x1_0000]);
        text.splice(8..8, vec![b'0'; more]);
        Some((me, text))
    }),
    ("head_too_short", |r, me, mask| {
        let mut text = head(me, mask);
        text.drain(r.below(8)..8);
        Some((me, text))
    }),
    ("head_carriage_return", |_, me, mask| {
        let mut text = head(me, mask);
        text.insert(8, b'\r');
        Some((me, text))
    }),
    ("head_blank", |r, me, mask| {
        let mut text = head(me, mask);
        text.insert(r.of(&[0, 8]), b' ');
        Some((me, text))
    }),
    ("head_after_line_feed", |_, me, mask| {
        Some((me, [b"\n".to_vec(), head(me, mask)].concat()))
    }),
    ("head_without_line_feed", |_, me, mask| {
        let mut text = head(me, mask);
        text.pop();
        Some((me, text))
    }),
    ("head_lacks", |_, me, _| Some((me, Vec::new()))),
    ("head_after_a_line", |r, me, mask| {
        let stored = Stored {
            me,
            mask,
            ..Stored::default()
        };
        let line = journal_lines::any(r, &stored).text();
        Some((me, [line, head(me, mask)].concat()))
    }),
];
