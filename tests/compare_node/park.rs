//! Several boxes that send each other what they say, while frames are lost,
//! repeated and overtaken, boxes lose power and one is cut off.

use support::numbers::{COMMIT, FOLLOWER, LAST, LEADER, ME, NUMBERS, ROLE};
use support::received_frames;
use support::records::{self, Record};
use support::under_way::UnderWay;

use crate::step_by_both::{Difference, Event};
use crate::steps::Rules;
use crate::NodeComparison;

const EVENTS: usize = 240;
const MOST_FRAMES: usize = 32;

struct Park {
    boxes: Vec<Record>,
    frames: UnderWay,
}

impl Park {
    fn leaders(&self) -> Vec<usize> {
        let leads = |at: &usize| self.boxes[*at].get(ROLE) == LEADER;
        (0..self.boxes.len()).filter(leads).collect()
    }

    fn number(&self, at: usize) -> u64 {
        self.boxes[at].get(ME)
    }
}

/// What a park has to see.
pub const WANTED: [&str; 8] = [
    "park",
    "park_won",
    "park_cut",
    "park_committed",
    "park_restart",
    "park_4",
    "park_9",
    "park_13",
];

/// An entry was cut, which another took the place of.
fn is_cut(before: &Record, after: &Record) -> bool {
    let both = before.get(LAST).min(after.get(LAST)) as usize;
    after.get(LAST) < before.get(LAST) || before.terms[..both] != after.terms[..both]
}

impl NodeComparison {
    pub fn park(&mut self) -> Result<(), Box<Difference>> {
        self.counts.add("park");
        let boxes = match self.r.one_in(3) {
            true => self.started()?,
            false => records::park(&mut self.r),
        };
        let mut park = Park {
            boxes,
            frames: UnderWay::at_most(MOST_FRAMES),
        };
        for _ in 0..EVENTS {
            self.park_event(&mut park)?;
        }
        Ok(())
    }

    /// A park of fresh boxes.
    fn started(&mut self) -> Result<Vec<Record>, Box<Difference>> {
        let (_, mask) = records::membership(&mut self.r);
        let mut started = Vec::new();
        for number in records::boxes(mask) {
            let record = Record::with_any_log([0; NUMBERS], &mut self.r);
            let event = Event::Start {
                me: number as u8,
                mask: mask as u8,
            };
            if let Some(step) = self.step(event, &record, Rules::Kept)? {
                started.push(step.next);
            }
        }
        Ok(started)
    }

    fn park_event(&mut self, park: &mut Park) -> Result<(), Box<Difference>> {
        if park.boxes.is_empty() {
            return Ok(());
        }
        let any = self.r.below(park.boxes.len());
        let leaders = park.leaders();
        let leader = match leaders[..] {
            [] => any,
            _ => self.r.of(&leaders),
        };
        let unheard = leaders.is_empty() || park.number(leader) == park.frames.cut_off;
        let order = records::order(&mut self.r);
        match self.r.below(200) {
            0 => self.at_box(park, any, Event::Timeout),
            1..=9 if unheard => self.at_box(park, any, Event::Timeout),
            10..=21 => self.at_box(park, leader, Event::Order(order)),
            22..=27 => self.at_box(park, leader, Event::Prompt),
            28 => self.at_box(park, any, Event::Order(order)),
            29 => self.at_box(park, any, Event::Prompt),
            30 => self.at_box(park, any, Event::HandedOut),
            31 => {
                self.counts.add("park_restart");
                park.boxes[any].restart();
                Ok(())
            }
            32..=36 => {
                let leader = park.number(leader);
                park.frames.cut_off = self.r.of(&[0, 0, park.number(any), leader]);
                Ok(())
            }
            37 | 38 => self.disturb(&park.boxes[any]),
            _ => self.deliver(park),
        }
    }

    /// A frame that should not have come; what it does is forgotten.
    fn disturb(&mut self, record: &Record) -> Result<(), Box<Difference>> {
        let text = match self.r.below(3) {
            0 => received_frames::frame(&mut self.r, record),
            1 => received_frames::misaddressed(&mut self.r, record),
            _ => received_frames::damaged(&mut self.r, record).1,
        };
        self.step(Event::Receive(&text), record, Rules::Kept)?;
        Ok(())
    }

    /// A frame that is under way arrives, or is lost.
    fn deliver(&mut self, park: &mut Park) -> Result<(), Box<Difference>> {
        let Some(frame) = park.frames.next(&mut self.r) else {
            return Ok(());
        };
        let lost = self.r.one_in(16);
        match park.frames.reaches(&frame) {
            Some(to) if !lost => {
                let at = (0..park.boxes.len()).find(|at| park.number(*at) == to);
                self.at_box(park, at.expect("a member"), Event::Receive(&frame))
            }
            _ => Ok(()),
        }
    }

    /// A box of the park takes the event, and its messages are on their way.
    fn at_box(&mut self, park: &mut Park, at: usize, event: Event) -> Result<(), Box<Difference>> {
        let before = &park.boxes[at];
        let Some(step) = self.step(event, before, Rules::InPark)? else {
            return Ok(());
        };
        let after = step.next;
        let heard = matches!(event, Event::Receive(_));
        let won = before.get(ROLE) != LEADER && after.get(ROLE) == LEADER;
        let committed = before.get(COMMIT) < after.get(COMMIT);
        self.counts.add_each(&[
            (heard && won, "park_won"),
            (is_cut(before, &after), "park_cut"),
            (committed && after.get(ROLE) == FOLLOWER, "park_committed"),
            (step.refusal == 4, "park_4"),
            (step.refusal == 9, "park_9"),
            (step.refusal == 13, "park_13"),
        ]);
        park.boxes[at] = after;
        park.frames.send(step.messages, &mut self.r);
        Ok(())
    }
}
