//! A box is started: its head is written, and it is fresh.

use crate::journal::{write_head, HEAD_TEXT};
use crate::members::is_membership;
use crate::record::{fresh, Node};
use crate::refusals::{BAD_RECORD, NO_ROOM};

/// The fresh node and the bytes of its head, or the refusal.
pub type Started = Result<(Node, usize), u8>;

pub fn start(me: u8, mask: u8, room: &mut [u8]) -> Started {
    if !is_membership(me, mask) {
        return Err(BAD_RECORD);
    }
    let head = room.get_mut(..HEAD_TEXT).ok_or(NO_ROOM)?;
    write_head(me, mask, head);
    Ok((fresh(me, mask), HEAD_TEXT))
}

#[cfg(test)]
mod checks {
    use super::*;
    use crate::checked_box::CheckedBox;
    use crate::record::handed_out;
    use crate::refusals::NOT_LEADER;
    use support::text::lines;

    #[test]
    fn starting() {
        let mut room = [b'#'; HEAD_TEXT];
        for (me, mask) in [(1, 0x00), (0, 0x01), (8, 0x80), (1, 0x81), (2, 0x01)] {
            assert_eq!(start(me, mask, &mut room), Err(BAD_RECORD));
            assert_eq!(start(me, mask, &mut []), Err(BAD_RECORD));
        }
        assert_eq!(start(7, 0x40, &mut room[..HEAD_TEXT - 1]), Err(NO_ROOM));
        assert_eq!(room, [b'#'; HEAD_TEXT]);
        assert!(start(7, 0x40, &mut room).is_ok());
    }

    /// 01's example to the first committed order.
    #[test]
    fn from_the_head_to_an_order() {
        let mut room = [b'#'; HEAD_TEXT + 1];
        assert_eq!(
            start(1, 0x07, &mut room).map(|(_, head)| head),
            Ok(HEAD_TEXT)
        );
        assert_eq!(&room, b"01110107\n#");

        let mut started = CheckedBox::new(1, 0x07);
        assert_eq!(
            (started.prompt(), started.order(5)),
            (NOT_LEADER, NOT_LEADER)
        );
        assert_eq!(started.timeout(), 0);
        assert_eq!(started.line, "0110010000000101000000\n");
        assert_eq!(
            started.messages,
            "0101010200000001000000000000\n0101010300000001000000000000\n"
        );

        assert_eq!(started.receive("010202010000000101\n"), 0);
        let blank = "00000001 0000000000000000";
        let line = |kept, entry| lines(&[&format!("01 10 01 00000001 01 {kept} 01 {entry}")]);
        assert_eq!(started.line, line("0000", blank));
        let first = |to| format!("01 03 01 {to} 00000001 0000 00000000 0000 01 {blank}");
        let appends = lines(&[&first("02"), &first("03")]);
        assert_eq!(started.messages, appends);
        assert_eq!(started.timeout(), 0);
        assert_eq!((&*started.line, &*started.messages), ("", ""));
        assert_eq!(started.prompt(), 0);
        assert_eq!((&*started.line, started.messages.clone()), ("", appends));

        assert_eq!(started.order(0xfedcba9876543210), 0);
        let entry = "00000001 fedcba9876543210";
        assert_eq!(started.line, line("0001", entry));
        let append = |to| format!("01 03 01 {to} 00000001 0000 00000000 0000 02 {blank} {entry}");
        assert_eq!(started.messages, lines(&[&append("02"), &append("03")]));
        assert_eq!(
            handed_out(&started.node, &started.terms, &started.orders),
            Ok(0)
        );

        // Yes to the blank, then to the order.
        assert_eq!(started.receive("0104020100000001010001\n"), 0);
        let second = "01 03 01 02 00000001 0001 00000001 0001 01".to_owned() + entry;
        assert_eq!(
            (&*started.line, &started.messages),
            ("", &lines(&[&second]))
        );
        assert_eq!(
            handed_out(&started.node, &started.terms, &started.orders),
            Ok(1)
        );
        assert_eq!(started.receive("0104020100000001010002\n"), 0);
        assert_eq!((&*started.line, &*started.messages), ("", ""));
        assert_eq!(
            handed_out(&started.node, &started.terms, &started.orders),
            Ok(2)
        );

        // A no steps back but not below match; the append carries commit.
        assert_eq!(
            started.receive(&lines(&["01 04 02 01 00000001 00 0000"])),
            0
        );
        let past = "01 03 01 02 00000001 0002 00000001 0002 00";
        assert_eq!(started.messages, lines(&[past]));
    }
}
