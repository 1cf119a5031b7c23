//! A check on several boxes of the twin that send each other what they say. Frames
//! are lost, repeated and overtaken, and boxes lose power: no alarm, one leader a
//! term, one history, a journal that says what is stored, and in the end no order that
//! stays uncommitted.

use std::collections::HashMap;

use support::random::Random;

use crate::checked_box::CheckedBox;
use crate::members::{bit, boxes, majority, place};
use crate::record::{term_at, LEADER, LONGEST_LOG};
use crate::refusals::{BLANK_ORDER, LOG_FULL, NOT_LEADER};

/// Term and order.
type Entry = (u32, u64);

struct Together {
    r: Random,
    boxes: Vec<CheckedBox>,
    /// Term, vote and log of each, by its journal lines alone.
    stored: Vec<(u32, u8, Vec<Entry>)>,
    frames: Vec<String>,
    /// The leader of each term.
    leaders: HashMap<u32, u8>,
    /// All that any box has handed out.
    history: Vec<Entry>,
}

/// A leader's commit by 01's words, index by index.
fn settled(leader: &CheckedBox, commit: u16) -> u16 {
    let node = &leader.node;
    let agreed = |index: &u16| {
        let others = boxes(node.others()).filter(|&b| node.matched[place(b)] >= *index);
        let yes = others.fold(bit(node.me), |yes, b| yes | bit(b));
        majority(yes, node.members) && term_at(&leader.terms, *index) == node.term
    };
    let largest = (commit + 1..=node.last).rev().find(agreed);
    largest.unwrap_or(commit)
}

impl Together {
    fn of(members: u8, r: Random) -> Together {
        let fresh: Vec<CheckedBox> = boxes(members)
            .map(|number| CheckedBox::new(number, members))
            .collect();
        Together {
            r,
            stored: vec![(0, 0, Vec::new()); fresh.len()],
            boxes: fresh,
            frames: Vec::new(),
            leaders: HashMap::new(),
            history: Vec::new(),
        }
    }

    /// The place of the box that took a step, if one did.
    fn event(&mut self, order: u64) -> Option<usize> {
        let at = self.r.below(self.boxes.len());
        let one = &mut self.boxes[at];
        let answer = match self.r.below(100) {
            0 => one.timeout(),
            1..=6 => {
                let commit = one.node.commit;
                let answer = one.order(order);
                if answer == 0 {
                    assert_eq!(one.node.commit, settled(one, commit));
                }
                answer
            }
            7..=21 => one.prompt(),
            22 => {
                let leads = one.node.role == LEADER;
                assert_eq!(one.order(0), if leads { BLANK_ORDER } else { NOT_LEADER });
                return None;
            }
            23 => {
                one.node.follow();
                one.node.commit = 0;
                return None;
            }
            kind => return self.deliver(kind),
        };
        assert!([0, NOT_LEADER, LOG_FULL].contains(&answer));
        (answer == 0).then_some(at)
    }

    /// Some frame, which by its kind of event comes again, or is lost.
    fn deliver(&mut self, kind: usize) -> Option<usize> {
        if self.frames.is_empty() {
            return None;
        }
        let which = self.r.below(self.frames.len());
        let frame = match kind {
            24..=30 => self.frames[which].clone(),
            _ => self.frames.swap_remove(which),
        };
        if kind > 96 {
            return None;
        }
        Some(self.receive(&frame))
    }

    /// The place of the box that the frame is for, which takes it.
    fn receive(&mut self, frame: &str) -> usize {
        let to = frame.as_bytes()[7] - b'0';
        let at = self.boxes.iter().position(|one| one.node.me == to);
        let at = at.expect("a member");
        let one = &mut self.boxes[at];
        let (role, commit) = (one.node.role, one.node.commit);
        let full = one.node.last == LONGEST_LOG;
        assert_eq!(one.receive(frame), 0);
        if one.node.role == LEADER {
            assert_eq!(one.node.commit, settled(one, commit));
        }
        if role != LEADER && one.node.role == LEADER && !full {
            let last = usize::from(one.node.last);
            assert_eq!(
                (one.log()[last - 1], one.orders[last - 1]),
                (one.node.term, 0)
            );
        }
        at
    }

    /// All power and links hold from now on, and no order comes: whoever has the
    /// newest log wins and commits all of it.
    fn calm_down(&mut self) {
        self.frames.clear();
        for _ in 0..2000 {
            let newest = |at: &usize| {
                (
                    *self.boxes[*at].log().last().unwrap_or(&0),
                    self.boxes[*at].node.last,
                )
            };
            let at = (0..self.boxes.len()).max_by_key(newest).expect("a box");
            let one = &mut self.boxes[at];
            let leads = one.node.role == LEADER;
            if leads && one.node.commit == one.node.last {
                return;
            }
            assert_eq!(if leads { one.prompt() } else { one.timeout() }, 0);
            self.stepped(at);
            while let Some(frame) = self.frames.pop() {
                let at = self.receive(&frame);
                self.stepped(at);
            }
        }
        panic!("older orders stay uncommitted");
    }

    /// What must hold after each step of the box there.
    fn stepped(&mut self, at: usize) {
        let one = &self.boxes[at];
        let node = &one.node;
        if node.role == LEADER {
            assert_eq!(*self.leaders.entry(node.term).or_insert(node.me), node.me);
        }
        self.frames
            .extend(one.messages.split_inclusive('\n').map(String::from));
        if self.frames.len() > 60 {
            self.frames.drain(..20);
        }
        let log: Vec<Entry> = one.log().iter().copied().zip(one.orders).collect();
        self.wrote(at, &log);
        let committed = usize::from(self.boxes[at].node.commit);
        let both = committed.min(self.history.len());
        assert_eq!(log[..both], self.history[..both]);
        self.history.extend(&log[both..committed]);
    }

    /// The line is there exactly when it changes what is stored, and says how.
    fn wrote(&mut self, at: usize, log: &Vec<Entry>) {
        let CheckedBox { node, line, .. } = &self.boxes[at];
        let (term, vote, stored) = &mut self.stored[at];
        let unchanged = (*term, *vote, &*stored) == (node.term, node.vote, log);
        assert_eq!(line.is_empty(), unchanged);
        if unchanged {
            return;
        }
        let field = |from: usize, digits: usize| {
            u64::from_str_radix(&line[from..from + digits], 16).expect("digits")
        };
        *term = field(6, 8) as u32;
        *vote = field(14, 2) as u8;
        stored.truncate(field(16, 4) as usize);
        for entry in 0..field(20, 2) as usize {
            let from = 22 + 24 * entry;
            stored.push((field(from, 8) as u32, field(from + 8, 16)));
        }
        assert_eq!((*term, *vote, &*stored), (node.term, node.vote, log));
    }
}

#[test]
fn boxes_together() {
    for seed in 0..24 {
        let members = [0x07, 0x1f, 0x7f, 0x0f, 0x2a][seed as usize % 5];
        let mut together = Together::of(members, Random::seeded(seed));
        for order in 1..=6000 {
            if let Some(at) = together.event(order) {
                together.stepped(at);
            }
        }
        let committed = together.history.len();
        together.calm_down();
        assert!(committed > 20, "seed {seed}: {committed} committed");
    }
}
