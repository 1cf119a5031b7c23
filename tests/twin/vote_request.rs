//! **Vote request.** Yes exactly when vote is 0 or the asker and the asker's log is
//! at least as new: higher last term, or the same and last index no smaller. A yes
//! sets vote.

use crate::digits::encode;
use crate::frames::VOTE_REQUEST_TEXT;
use crate::members::boxes;
use crate::message::Message;
use crate::record::{Node, Terms};

impl Node {
    /// The answer to an asker whose log ends so; a lower term gets a no.
    pub(crate) fn asked(
        &mut self,
        from: u8,
        lower: bool,
        (last_term, last_index): (u32, u16),
        terms: &Terms,
    ) -> Message {
        let yes = !lower
            && (self.vote == 0 || self.vote == from)
            && (last_term, last_index) >= (self.last_term(terms), self.last);
        if yes {
            self.vote = from;
        }
        Message::VoteAnswer {
            from: self.me,
            to: from,
            term: self.term,
            yes: yes.into(),
        }
    }

    /// One to every other member. They are frames and need no second look; their
    /// room was looked at before.
    pub(crate) fn write_vote_requests(&self, terms: &Terms, room: &mut [u8]) {
        let [t1, t2, t3, t4] = self.term.to_be_bytes();
        let [i1, i2] = self.last.to_be_bytes();
        let [p1, p2, p3, p4] = self.last_term(terms).to_be_bytes();
        let texts = room.chunks_exact_mut(VOTE_REQUEST_TEXT);
        for (text, to) in texts.zip(boxes(self.others())) {
            let request = [1, 1, self.me, to, t1, t2, t3, t4, i1, i2, p1, p2, p3, p4];
            encode(request, text);
            text[VOTE_REQUEST_TEXT - 1] = b'\n';
        }
    }
}

#[cfg(test)]
mod checks {
    use crate::checked_box::CheckedBox;
    use support::text::lines;

    #[test]
    fn newer_logs() {
        for (asker, own, yes) in [
            ("0003 00000002", (5, 1), "01"),
            ("0004 00000002", (5, 2), "00"),
            ("0005 00000002", (5, 2), "01"),
            ("0009 00000001", (1, 2), "00"),
        ] {
            let mut asked = CheckedBox::with_log(1, 0x07, 4, &vec![own.1; own.0]);
            let request = format!("01 01 02 01 00000004 {asker}");
            assert_eq!(asked.receive(&lines(&[&request])), 0);
            let answer = format!("01 02 01 02 00000004 {yes}");
            assert_eq!(asked.messages, lines(&[&answer]));
        }
    }
}
