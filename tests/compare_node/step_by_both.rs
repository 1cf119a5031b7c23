//! One event, taken by both sides with all that it may touch.

use std::fmt;

use support::comparison::Different;
use support::guarded::{hex, same_around, LentRecord, BOTH, GUARD};
use support::random::Random;
use support::records::Record;
use support::sides::{Side, OURS, TWIN};

#[derive(Clone, Copy)]
pub enum Event<'a> {
    Start { me: u8, mask: u8 },
    Timeout,
    Prompt,
    Order(u64),
    Receive(&'a [u8]),
    HandedOut,
}

impl Event<'_> {
    pub fn name(self) -> &'static str {
        match self {
            Event::Start { .. } => "start",
            Event::Timeout => "timeout",
            Event::Prompt => "prompt",
            Event::Order(_) => "order",
            Event::Receive(_) => "receive",
            Event::HandedOut => "handed_out",
        }
    }
}

impl fmt::Display for Event<'_> {
    fn fmt(&self, f: &mut fmt::Formatter) -> fmt::Result {
        f.write_str(self.name())?;
        match self {
            Event::Start { me, mask } => write!(f, " {me:x} {mask:x}"),
            Event::Order(order) => write!(f, " {order:x}"),
            Event::Receive(text) => write!(f, " \"{}\"", text.escape_ascii()),
            _ => Ok(()),
        }
    }
}

/// Lengths of the room for the journal line and of that for the messages.
#[derive(Clone, Copy, PartialEq)]
pub struct Rooms {
    pub journal: usize,
    pub messages: usize,
}

/// More than any step needs.
pub const ROOMY: Rooms = Rooms {
    journal: 119 + 40,
    messages: 786 + 70,
};

/// No text that is received is longer.
const TEXT: usize = 400;

/// All that a call may touch, and around it. Of the rooms and the text a call is
/// lent the first bytes only. The count of entries handed out takes the first of
/// the sizes; a start leaves both alone.
#[derive(Clone, PartialEq)]
pub struct Lent {
    box_record: LentRecord,
    journal: [u8; ROOMY.journal + BOTH],
    room: [u8; ROOMY.messages + BOTH],
    text: [u8; TEXT + BOTH],
}

fn scatter(bytes: &mut [u8], r: &mut Random) {
    for part in bytes.chunks_mut(8) {
        part.copy_from_slice(&r.next().to_ne_bytes()[..part.len()]);
    }
}

impl Lent {
    /// The record and the text, and around them and in the rooms a pattern that
    /// shows what is touched.
    pub fn new(event: Event, record: &Record, r: &mut Random) -> Lent {
        // What lies past a text that lacks its end would make a frame of it.
        let bait = r.of(b"\n\n01");
        let mut lent = Lent {
            box_record: LentRecord::new(record, r),
            journal: [0; ROOMY.journal + BOTH],
            room: [0; ROOMY.messages + BOTH],
            text: [bait; TEXT + BOTH],
        };
        scatter(&mut lent.journal, r);
        scatter(&mut lent.room, r);
        if let Event::Receive(text) = event {
            lent.text[GUARD..][..text.len()].copy_from_slice(text);
        }
        lent
    }

    pub fn record(&self) -> Record {
        self.box_record.record()
    }

    pub fn sizes(&self) -> [u64; 2] {
        self.box_record.sizes()
    }

    /// The first bytes of the rooms, as many as that.
    pub fn written(&self, sizes: Rooms) -> (&[u8], &[u8]) {
        (
            &self.journal[GUARD..][..sizes.journal],
            &self.room[GUARD..][..sizes.messages],
        )
    }
}

/// The refusal; of a start also the bytes written, times 256.
fn take(side: &Side, event: Event, lent: &mut Lent, rooms: Rooms) -> u64 {
    let (numbers, terms, orders, sizes) = lent.box_record.lend();
    let journal = &mut lent.journal[GUARD..][..rooms.journal];
    let room = &mut lent.room[GUARD..][..rooms.messages];
    let answer = match event {
        Event::Start { me, mask } => return (side.start)(me, mask, numbers, room),
        Event::Timeout => (side.timeout)(numbers, terms, orders, journal, room, sizes),
        Event::Prompt => (side.prompt)(numbers, terms, orders, journal, room, sizes),
        Event::Order(order) => (side.order)(order, numbers, terms, orders, journal, room, sizes),
        Event::Receive(text) => {
            let text = &lent.text[GUARD..][..text.len()];
            (side.receive)(text, numbers, terms, orders, journal, room, sizes)
        }
        Event::HandedOut => (side.handed_out)(numbers, terms, orders, &mut sizes[0]),
    };
    answer.into()
}

/// A step or a refusal on which both sides agreed.
pub struct StepByBoth<'a> {
    pub event: Event<'a>,
    pub before: &'a Lent,
    pub rooms: Rooms,
    pub answer: u64,
    pub after: Lent,
}

impl<'a> StepByBoth<'a> {
    /// Both take the event with these rooms.
    pub fn new(
        event: Event<'a>,
        before: &'a Lent,
        rooms: Rooms,
    ) -> Result<StepByBoth<'a>, Box<Difference>> {
        let (mut by_us, mut by_twin) = (before.clone(), before.clone());
        let answer = take(&OURS, event, &mut by_us, rooms);
        let twin_answer = take(&TWIN, event, &mut by_twin, rooms);
        if answer != twin_answer || by_us != by_twin {
            return Err(Box::new(Difference {
                what: "ours and the twin",
                event: event.to_string(),
                rooms,
                before: before.clone(),
                ours: (answer, by_us),
                twin: (twin_answer, by_twin),
            }));
        }
        let taken = StepByBoth {
            event,
            before,
            rooms,
            answer,
            after: by_us,
        };
        if taken.refusal() != 0 && taken.after != *before {
            return Err(taken.wrong("both, a refusal touches something"));
        }
        Ok(taken)
    }

    pub fn refusal(&self) -> u8 {
        self.answer as u8
    }

    /// The bytes written.
    pub fn written(&self) -> Rooms {
        let [line, messages] = match self.event {
            _ if self.refusal() != 0 => [0, 0],
            Event::Start { .. } => [0, self.answer >> 8],
            Event::HandedOut => [0, 0],
            _ => self.after.sizes(),
        };
        Rooms {
            journal: line as usize,
            messages: messages as usize,
        }
    }

    /// The messages, each with its line feed.
    pub fn messages(&self) -> impl Iterator<Item = &[u8]> {
        let (_, messages) = self.after.written(self.written());
        messages.split_inclusive(|&byte| byte == b'\n')
    }

    /// They agree and are both wrong.
    pub fn wrong(&self, what: &'static str) -> Box<Difference> {
        let side = (self.answer, self.after.clone());
        Box::new(Difference {
            what,
            event: self.event.to_string(),
            rooms: self.rooms,
            before: self.before.clone(),
            ours: side.clone(),
            twin: side,
        })
    }
}

/// What to print at a difference: what was lent, and both answers with all
/// that they may touch.
pub struct Difference {
    what: &'static str,
    event: String,
    rooms: Rooms,
    before: Lent,
    ours: (u64, Lent),
    twin: (u64, Lent),
}

impl Difference {
    pub fn print(&self) -> Different {
        println!("difference: {}", self.what);
        println!("event: {}", self.event);
        println!("before, numbers in hexadecimal:");
        self.print_side(&self.before);
        let Record { terms, orders, .. } = self.before.record();
        println!("  terms {}", hex(&terms));
        println!("  orders {}", hex(&orders));
        for (side, (answer, after)) in [("ours", &self.ours), ("twin", &self.twin)] {
            println!("{side}: answer {answer}");
            self.print_side(after);
        }
        Different
    }

    fn print_side(&self, lent: &Lent) {
        let (journal, room) = lent.written(self.rooms);
        lent.box_record.print(&self.before.box_record);
        println!("  journal of {}: {}", journal.len(), journal.escape_ascii());
        println!("  room of {}: {}", room.len(), room.escape_ascii());
        if !self.is_around(lent) {
            println!("  and something beside what was lent");
        }
    }

    /// Around what was lent, this is as before.
    fn is_around(&self, lent: &Lent) -> bool {
        let before = &self.before;
        lent.box_record.is_around(&before.box_record)
            && same_around(&lent.journal, &before.journal, self.rooms.journal)
            && same_around(&lent.room, &before.room, self.rooms.messages)
            && lent.text == before.text
    }
}
