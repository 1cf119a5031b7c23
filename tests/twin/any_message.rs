//! **Any message** with a higher term: take that term, vote 0, follower, then go on
//! as its kind does. A lower term: a request gets a no with the box's own term; an
//! answer does nothing.

use crate::frames::{self, APPEND_ANSWER_TEXT, VOTE_ANSWER_TEXT};
use crate::journal::line_text;
use crate::members::bit;
use crate::message::{Entry, Message};
use crate::record::{store, Node, Orders, Terms};
use crate::refusals::{NOT_A_FRAME, NOT_FOR_THIS_BOX};
use crate::step::{Answer, Step};

/// What a message makes the box send: an answer, or appends to the boxes of a mask.
enum Sent {
    Answer(Message),
    Appends(u8),
    /// The box has won.
    FirstAppends,
}

impl Node {
    pub fn receive(
        self,
        bytes: &[u8],
        terms: &mut Terms,
        orders: &mut Orders,
        journal: &mut [u8],
        room: &mut [u8],
    ) -> Answer {
        self.check(terms)?;
        self.received(bytes, terms, orders, journal, room)
    }

    /// The same for a record known to be good.
    pub(crate) fn received(
        self,
        bytes: &[u8],
        terms: &mut Terms,
        orders: &mut Orders,
        journal: &mut [u8],
        room: &mut [u8],
    ) -> Answer {
        let message = frames::read(bytes).ok_or(NOT_A_FRAME)?;
        let (from, to, term) = message.head();
        if to != self.me || self.others() & bit(from) == 0 {
            return Err(NOT_FOR_THIS_BOX);
        }
        let mut node = self;
        if term > self.term {
            node.term = term;
            node.vote = 0;
            node.follow();
        }
        let (sent, added) = node.deliver(&message, from, term < self.term, terms)?;
        let wins = matches!(sent, Sent::FirstAppends);
        let blank = if wins { node.win() } else { None };
        let added = if wins { blank.as_slice() } else { added };

        // What is cut is always followed by something added.
        let changed = node.term != self.term || node.vote != self.vote || !added.is_empty();
        let line = if changed { line_text(added.len()) } else { 0 };
        let messages = match sent {
            Sent::Answer(Message::VoteAnswer { .. }) => VOTE_ANSWER_TEXT,
            Sent::Answer(_) => APPEND_ANSWER_TEXT,
            Sent::Appends(to) => node.appends_length(to),
            Sent::FirstAppends => node.appends_length(node.others()),
        };
        let step = node.fit(line, messages, journal, room)?;
        let kept = node.last - added.len() as u16;
        for (before, entry) in (kept..).zip(added) {
            store(*entry, before, terms, orders);
        }
        // Lengths do not depend on commit, which needs the entry.
        if wins {
            node.settle(terms);
        }
        if changed {
            node.write_line(kept, terms, orders, journal);
        }
        match sent {
            Sent::Answer(answer) => {
                frames::write(&answer, room).expect("a frame with room");
            }
            Sent::Appends(to) => node.write_appends(to, terms, orders, room),
            Sent::FirstAppends => node.write_appends(node.others(), terms, orders, room),
        }
        Ok(Step { node, ..step })
    }

    /// The message by its kind: what is sent, and the entries to be added.
    #[inline]
    fn deliver<'a>(
        &mut self,
        message: &'a Message,
        from: u8,
        lower: bool,
        terms: &Terms,
    ) -> Result<(Sent, &'a [Entry]), u8> {
        let sent = match *message {
            Message::VoteRequest {
                last_index,
                last_term,
                ..
            } => Sent::Answer(self.asked(from, lower, (last_term, last_index), terms)),
            Message::Append { .. } if lower => Sent::Answer(self.append_answer(from, None)),
            Message::Append {
                previous_index,
                previous_term,
                commit,
                count,
                ref entries,
                ..
            } => {
                let entries = &entries[..usize::from(count)];
                let (index, added) =
                    self.appended(previous_index, previous_term, commit, entries, terms)?;
                return Ok((Sent::Answer(self.append_answer(from, index)), added));
            }
            _ if lower => Sent::Appends(0),
            Message::VoteAnswer { yes, .. } => match self.answered_vote(from, yes == 1) {
                true => Sent::FirstAppends,
                false => Sent::Appends(0),
            },
            Message::AppendAnswer { yes, index, .. } => {
                Sent::Appends(self.answered_append(from, yes == 1, index, terms)?)
            }
        };
        Ok((sent, &[]))
    }
}

#[cfg(test)]
mod checks {
    use crate::checked_box::CheckedBox;
    use crate::record::{handed_out, FOLLOWER};
    use crate::refusals::*;
    use support::text::lines;

    #[test]
    fn messages_that_are_refused() {
        let mut leader = CheckedBox::with_log(1, 0x07, 4, &[1, 1, 2]).lead();
        let append = |from: &str, to: &str, term: &str| {
            lines(&[&format!("01 03 {from} {to} {term} 0000 00000000 0000 00")])
        };
        let own_term = append("02", "01", "00000004");
        assert_eq!(leader.receive(own_term.trim_end()), NOT_A_FRAME);
        for (from, to) in [("02", "03"), ("01", "01"), ("04", "01")] {
            assert_eq!(
                leader.receive(&append(from, to, "00000009")),
                NOT_FOR_THIS_BOX
            );
        }
        assert_eq!(leader.receive(&own_term), TWO_LEADERS);
        let past = lines(&["01 04 02 01 00000004 01 0004"]);
        assert_eq!(leader.receive(&past), PAST_THE_LOG);

        // 12 comes before 1.
        leader.node.commit = 4;
        assert_eq!(leader.receive(""), BAD_RECORD);
        assert_eq!(leader.timeout(), BAD_RECORD);
        assert_eq!(
            handed_out(&leader.node, &leader.terms, &leader.orders),
            Err(BAD_RECORD)
        );
    }

    #[test]
    fn terms_of_messages() {
        // Lower: a no with the box's own term, and nothing for an answer.
        let mut bench = CheckedBox::with_log(1, 0x07, 4, &[1, 1, 2]);
        assert_eq!(
            bench.receive(&lines(&["01 01 02 01 00000003 0009 00000002"])),
            0
        );
        assert_eq!(bench.messages, lines(&["01 02 01 02 00000004 00"]));
        assert_eq!(
            bench.receive(&lines(&["01 03 02 01 00000003 0000 00000000 0000 00"])),
            0
        );
        assert_eq!(bench.messages, lines(&["01 04 01 02 00000004 00 0000"]));
        assert_eq!(bench.receive(&lines(&["01 02 02 01 00000003 01"])), 0);
        assert_eq!((&*bench.line, &*bench.messages), ("", ""));

        // Higher: one line, also with a no; an answer is no more than its term.
        assert_eq!(
            bench.receive(&lines(&["01 01 02 01 00000005 0009 00000001"])),
            0
        );
        assert_eq!(bench.line, lines(&["01 10 01 00000005 00 0003 00"]));
        assert_eq!(bench.messages, lines(&["01 02 01 02 00000005 00"]));
        bench = bench.lead();
        assert_eq!(bench.receive(&lines(&["01 04 02 01 00000006 01 0003"])), 0);
        assert_eq!(bench.line, lines(&["01 10 01 00000006 00 0003 00"]));
        assert_eq!((&*bench.messages, bench.node.role), ("", FOLLOWER));

        // A vote asked twice is one line.
        let request = lines(&["01 01 03 01 00000006 0003 00000002"]);
        assert_eq!(bench.receive(&request), 0);
        assert_eq!(bench.line, lines(&["01 10 01 00000006 03 0003 00"]));
        assert_eq!((bench.receive(&request), &*bench.line), (0, ""));
        assert_eq!(bench.messages, lines(&["01 02 01 03 00000006 01"]));
    }
}
