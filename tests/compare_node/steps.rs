//! A step of both sides: one event on one record, taken with many rooms, and judged
//! by what is known of the record.

use support::numbers::{LAST, LEADER, NEXT, ROLE, TERM};
use support::received_frames::Fields;
use support::records::{boxes, Record};
use twin::flat_record;

use crate::cases_met::CasesMet;
use crate::step_by_both::{Difference, Event, Lent, Rooms, StepByBoth, ROOMY};
use crate::NodeComparison;

/// What is known of a record.
#[derive(Clone, Copy, PartialEq)]
pub enum Rules {
    Kept,
    Broken,
    Unknown,
    /// Kept, and by the whole park: there is nothing to be alarmed at.
    InPark,
}

/// What a step left. After a refusal the next record is the one before.
pub struct Step {
    pub refusal: u8,
    pub next: Record,
    pub messages: Vec<Vec<u8>>,
}

fn is_good(record: &Record) -> bool {
    let node = flat_record::from_flat(&record.numbers);
    node.is_some_and(|node| node.is_good(&record.terms))
}

/// The names of what a room that is too short does.
pub const SHORT: [&str; 7] = [
    "5_by_journal",
    "5_by_room",
    "5_by_both",
    "5_by_journal_at_winning",
    "5_by_room_at_winning",
    "5_by_both_at_winning",
    "5_by_journal_at_winning_at_once",
];

/// A good record's answer to an order, but for the room: 3, 13 and 4 in that order.
fn order_refusal(record: &Record, order: u64) -> u8 {
    match record.get(ROLE) {
        LEADER if order == 0 => 13,
        LEADER if record.get(LAST) == 256 => 4,
        LEADER => 0,
        _ => 3,
    }
}

fn wins(before: &Record, after: &Record) -> bool {
    before.get(ROLE) != LEADER && after.get(ROLE) == LEADER
}

/// A box that wins has the blank after all that it held, unless that was 256
/// entries; the first append to each other is the one that carries it.
fn won_rightly(before: &Record, after: &Record) -> bool {
    let last = before.get(LAST) as usize;
    let blank = match last {
        256 => after.get(LAST) == 256,
        _ => {
            after.get(LAST) == last as u64 + 1
                && u64::from(after.terms[last]) == after.get(TERM)
                && after.orders[last] == 0
        }
    };
    let mut others = boxes(after.others()).into_iter();
    blank
        && before.terms[..last] == after.terms[..last]
        && before.orders[..last] == after.orders[..last]
        && others.all(|number| after.get(NEXT + number as usize - 1) == last as u64 + 1)
}

/// What the two agree on may be wrong all the same.
fn judge(
    taken: &StepByBoth,
    before: &Record,
    next: &Record,
    rules: Rules,
) -> Result<(), Box<Difference>> {
    let refusal = taken.refusal();
    let good = matches!(rules, Rules::Kept | Rules::InPark);
    if let (Event::Order(order), true) = (taken.event, good) {
        if refusal != order_refusal(before, order) {
            return Err(taken.wrong("both, another refusal of an order than its rule's"));
        }
    }
    let wrong = match refusal {
        0 if good && wins(before, next) && !won_rightly(before, next) => {
            "both, a box that has won without its blank"
        }
        5 => "both, 5 with room for all",
        12 if good => "both, 12 for a good record",
        6..=8 if rules == Rules::InPark => "both, an alarm in a park that keeps the rules",
        0 if good && !is_good(next) => "both, a bad record after a good one",
        0..=11 | 13 if rules == Rules::Broken => "both, a bad record taken",
        _ => return Ok(()),
    };
    Err(taken.wrong(wrong))
}

impl NodeComparison {
    /// One event on one record, with all its rooms. None when all steps are
    /// taken.
    pub fn step(
        &mut self,
        event: Event,
        record: &Record,
        rules: Rules,
    ) -> Result<Option<Step>, Box<Difference>> {
        if self.taken == self.count {
            return Ok(None);
        }
        self.taken += 1;
        let lent = Lent::new(event, record, &mut self.r);
        let taken = StepByBoth::new(event, &lent, ROOMY)?;
        let next = taken.after.record();
        judge(&taken, record, &next, rules)?;
        let refusal = taken.refusal();
        self.counts.add_of(event.name(), refusal.into());
        CasesMet {
            counts: &mut self.counts,
            taken: &taken,
            before: record,
            after: &next,
        }
        .count();
        match refusal {
            0 => self.other_rooms(&taken)?,
            _ => self.refused_in_other_rooms(&taken)?,
        }
        let messages = taken.messages().map(<[u8]>::to_vec).collect();
        Ok(Some(Step {
            refusal,
            next,
            messages,
        }))
    }

    fn refused_in_other_rooms(&mut self, roomy: &StepByBoth) -> Result<(), Box<Difference>> {
        let none = Rooms {
            journal: 0,
            messages: 0,
        };
        let some = Rooms {
            journal: self.r.below(48),
            messages: self.r.below(200),
        };
        for rooms in [none, some] {
            let short = StepByBoth::new(roomy.event, roomy.before, rooms)?;
            if short.answer != roomy.answer {
                return Err(short.wrong("both, another refusal in a short room"));
            }
        }
        Ok(())
    }

    /// The step of this taken again, in rooms around what it has written.
    fn other_rooms(&mut self, roomy: &StepByBoth) -> Result<(), Box<Difference>> {
        let exact = roomy.written();
        let wins = wins(&roomy.before.record(), &roomy.after.record());
        for rooms in self.rooms_around(exact) {
            let short_journal = rooms.journal < exact.journal;
            let short_room = rooms.messages < exact.messages;
            let taken = StepByBoth::new(roomy.event, roomy.before, rooms)?;
            if taken.refusal() != if short_journal || short_room { 5 } else { 0 } {
                return Err(taken.wrong("both, 5 not exactly when the room is short"));
            }
            if taken.refusal() == 0
                && (taken.answer != roomy.answer
                    || taken.written() != exact
                    || taken.after.record() != roomy.after.record()
                    || taken.after.written(exact) != roomy.after.written(exact))
            {
                return Err(taken.wrong("both, another step in another room"));
            }
            let (name, at_winning) = match (short_journal, short_room) {
                (true, true) => ("5_by_both", "5_by_both_at_winning"),
                (true, false) => ("5_by_journal", "5_by_journal_at_winning"),
                (false, true) => ("5_by_room", "5_by_room_at_winning"),
                (false, false) => continue,
            };
            let at_once = matches!(taken.event, Event::Timeout);
            self.counts.add_each(&[
                (true, name),
                (wins && !at_once, at_winning),
                (wins && at_once, "5_by_journal_at_winning_at_once"),
            ]);
            self.counts.add_of(taken.event.name(), 5);
            if let Event::Receive(text) = taken.event {
                let kind = Fields::of(text).map_or(0, |f| f.kind);
                self.counts.add_of("5_of_kind", kind);
            }
        }
        Ok(())
    }

    /// Exact, one too short, none, longer and any, for each of the two.
    fn rooms_around(&mut self, exact: Rooms) -> [Rooms; 12] {
        let longer = Rooms {
            journal: exact.journal + 1 + self.r.below(30),
            messages: exact.messages + 1 + self.r.below(60),
        };
        let any = Rooms {
            journal: self.r.below(exact.journal + 1),
            messages: self.r.below(exact.messages + 1),
        };
        let shorter = Rooms {
            journal: exact.journal.saturating_sub(1),
            messages: exact.messages.saturating_sub(1),
        };
        [
            (exact.journal, exact.messages),
            (longer.journal, longer.messages),
            (shorter.journal, exact.messages),
            (exact.journal, shorter.messages),
            (shorter.journal, shorter.messages),
            (shorter.journal, longer.messages),
            (longer.journal, shorter.messages),
            (0, exact.messages),
            (exact.journal, 0),
            (0, 0),
            (any.journal, longer.messages),
            (longer.journal, any.messages),
        ]
        .map(|(journal, messages)| Rooms { journal, messages })
    }
}
