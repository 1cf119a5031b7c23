//! Boxes, memberships and majorities: box i has bit i - 1 of a mask.

pub const BOXES: usize = 7;

/// The box's place in `next` and `matched`.
pub(crate) fn place(number: u8) -> usize {
    usize::from(number - 1)
}

pub(crate) fn bit(number: u8) -> u8 {
    1 << (number - 1)
}

pub(crate) fn is_member(number: u8, members: u8) -> bool {
    (1..=BOXES as u8).contains(&number) && members & bit(number) != 0
}

/// A mask that holds the box is not 0.
pub(crate) fn is_membership(me: u8, members: u8) -> bool {
    members < 0x80 && is_member(me, members)
}

/// The boxes of a mask, in rising number.
pub(crate) fn boxes(mask: u8) -> impl Iterator<Item = u8> {
    (1..=BOXES as u8).filter(move |&number| mask & bit(number) != 0)
}

/// Twice the number of ones in the yes mask exceeds the number of ones in the
/// membership; only members count.
pub(crate) fn majority(yes: u8, members: u8) -> bool {
    2 * (yes & members).count_ones() > members.count_ones()
}

#[cfg(test)]
mod checks {
    use super::*;

    #[test]
    fn majorities() {
        assert!(majority(0x03, 0x07) && !majority(0x01, 0x07));
        assert!(!majority(0x03, 0x0f) && majority(0x07, 0x0f));
        assert!(majority(0x0f, 0x7f) && !majority(0x07, 0x7f));
        assert!(!majority(0, 0) && !majority(0x78, 0x07));
    }
}
