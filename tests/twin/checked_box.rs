//! For the checks: a box that takes each event with all sorts of rooms, and what a
//! refusal or a short room may not touch is looked at every time.

use crate::journal::HEAD_TEXT;
use crate::members::{boxes, place};
use crate::record::{Node, Orders, Terms, LEADER};
use crate::refusals::NO_ROOM;
use crate::start;
use crate::step::Answer;

/// A box with its log and what its last step wrote.
pub struct CheckedBox {
    pub node: Node,
    pub terms: Terms,
    pub orders: Orders,
    pub line: String,
    pub messages: String,
}

impl CheckedBox {
    pub fn new(me: u8, mask: u8) -> CheckedBox {
        let (node, _) = start(me, mask, &mut [0; HEAD_TEXT]).expect("a box");
        CheckedBox {
            node,
            terms: [0; 256],
            orders: [0; 256],
            line: String::new(),
            messages: String::new(),
        }
    }

    /// In a term, with a log of these terms.
    pub fn with_log(me: u8, mask: u8, term: u32, terms: &[u32]) -> CheckedBox {
        let mut checked = CheckedBox::new(me, mask);
        checked.node.term = term;
        checked.node.last = terms.len() as u16;
        checked.terms[..terms.len()].copy_from_slice(terms);
        checked
    }

    /// Leading, with nothing of its own in the log: a record that somebody made.
    pub fn lead(mut self) -> CheckedBox {
        let node = &mut self.node;
        node.role = LEADER;
        node.vote = node.me;
        node.votes = 0;
        for number in boxes(node.others()) {
            node.next[place(number)] = node.last + 1;
        }
        self
    }

    fn take(
        &mut self,
        event: impl Fn(Node, &mut Terms, &mut Orders, &mut [u8], &mut [u8]) -> Answer,
    ) -> u8 {
        let before = (self.node, self.terms, self.orders);
        let attempt = |line: usize, messages: usize| {
            let mut journal = vec![b'#'; line];
            let mut room = vec![b'#'; messages];
            let (mut terms, mut orders) = (before.1, before.2);
            let answer = event(before.0, &mut terms, &mut orders, &mut journal, &mut room);
            (answer, terms, orders, journal, room)
        };
        let (answer, terms, orders, journal, room) = attempt(120, 800);
        let (line, messages) = answer.map_or((0, 0), |step| (step.line, step.messages));
        assert!(journal[line..].iter().all(|&byte| byte == b'#'));
        assert!(room[messages..].iter().all(|&byte| byte == b'#'));
        self.line = String::from_utf8(journal[..line].to_vec()).expect("digits");
        self.messages = String::from_utf8(room[..messages].to_vec()).expect("digits");
        let refusal = match answer {
            Ok(step) => {
                let mut short = vec![];
                if line > 0 {
                    short.push((line - 1, messages));
                }
                if messages > 0 {
                    short.push((line, messages - 1));
                }
                for (line, messages) in short {
                    let (answer, terms, orders, journal, room) = attempt(line, messages);
                    assert_eq!(answer, Err(NO_ROOM));
                    assert!((terms, orders) == (before.1, before.2));
                    assert!(journal.iter().chain(&room).all(|&byte| byte == b'#'));
                }
                assert_eq!(attempt(line, messages).0, answer);
                assert!(step.node.is_good(&terms));
                self.node = step.node;
                0
            }
            Err(refusal) => {
                assert!((terms, orders) == (before.1, before.2));
                refusal
            }
        };
        (self.terms, self.orders) = (terms, orders);
        refusal
    }

    pub fn timeout(&mut self) -> u8 {
        self.take(|node, terms, orders, journal, room| node.timeout(terms, orders, journal, room))
    }

    pub fn order(&mut self, order: u64) -> u8 {
        self.take(|node, terms, orders, journal, room| {
            node.order(order, terms, orders, journal, room)
        })
    }

    pub fn prompt(&mut self) -> u8 {
        self.take(|node, terms, orders, journal, room| node.prompt(terms, orders, journal, room))
    }

    pub fn receive(&mut self, text: &str) -> u8 {
        self.take(|node, terms, orders, journal, room| {
            node.receive(text.as_bytes(), terms, orders, journal, room)
        })
    }

    pub fn log(&self) -> &[u32] {
        &self.terms[..usize::from(self.node.last)]
    }
}
