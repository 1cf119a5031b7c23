//! One opening, or one line replayed, by both sides with all that it may touch.

use support::comparison::Different;
use support::guarded::{LentRecord, GUARD};
use support::numbers::{COMMIT, LAST, TERM, VOTE};
use support::random::Random;
use support::records::Record;
use support::sides::{Side, OURS, TWIN};

#[derive(Clone, Copy)]
pub enum Call {
    Open { me: u8 },
    Replay,
}

/// All that a call may touch, and around it. Of the text a call is lent the first
/// bytes only.
#[derive(Clone, PartialEq)]
pub struct Lent {
    box_record: LentRecord,
    text: Vec<u8>,
}

impl Lent {
    /// The record, and around it a pattern that shows what is touched.
    pub fn new(record: &Record, r: &mut Random) -> Lent {
        Lent {
            box_record: LentRecord::new(record, r),
            text: Vec::new(),
        }
    }

    /// What lies past a text that lacks its end would make a whole line of it.
    pub fn set_text(&mut self, text: &[u8], r: &mut Random) {
        let bait = r.of(b"\n\n01");
        self.text.clear();
        self.text.extend([bait; GUARD]);
        self.text.extend(text);
        self.text.extend([bait; GUARD]);
    }

    fn text(&self, length: usize) -> &[u8] {
        &self.text[GUARD..][..length]
    }

    pub fn record(&self) -> Record {
        self.box_record.record()
    }

    pub fn sizes(&self) -> [u64; 2] {
        self.box_record.sizes()
    }

    /// The entries up to the last one are that record's.
    fn take_log(&mut self, record: &Record) {
        let last = record.get(LAST).min(256) as usize;
        let (_, terms, orders, _) = self.box_record.lend();
        terms[..last].copy_from_slice(&record.terms[..last]);
        orders[..last].copy_from_slice(&record.orders[..last]);
    }
}

fn take(side: &Side, call: Call, length: usize, lent: &mut Lent) -> u8 {
    let text = &lent.text[GUARD..][..length];
    let (numbers, terms, orders, sizes) = lent.box_record.lend();
    match call {
        Call::Open { me } => (side.open)(me, text, numbers, terms, orders, sizes),
        Call::Replay => (side.replay)(text, numbers, terms, orders),
    }
}

/// A call on which both sides agreed.
pub struct OpeningByBoth<'a> {
    call: Call,
    before: &'a Lent,
    /// Of the text, the bytes lent.
    length: usize,
    pub answer: u8,
    pub after: Lent,
}

impl<'a> OpeningByBoth<'a> {
    /// Both take the call with so many bytes of the text.
    pub fn new(
        call: Call,
        before: &'a Lent,
        length: usize,
    ) -> Result<OpeningByBoth<'a>, Box<Difference>> {
        let (mut by_us, mut by_twin) = (before.clone(), before.clone());
        let answer = take(&OURS, call, length, &mut by_us);
        let twin_answer = take(&TWIN, call, length, &mut by_twin);
        if answer != twin_answer || by_us != by_twin {
            return Err(Box::new(Difference {
                what: "ours and the twin",
                call,
                length,
                before: before.clone(),
                ours: (answer, by_us),
                twin: (twin_answer, by_twin),
            }));
        }
        let done = OpeningByBoth {
            call,
            before,
            length,
            answer,
            after: by_us,
        };
        if done.after != done.allowed() {
            return Err(done.wrong("both, something touched that is not theirs"));
        }
        Ok(done)
    }

    /// What was lent, with what this answer may change as it was left. The byte
    /// count is fixed by the last line feed.
    fn allowed(&self) -> Lent {
        let mut allowed = self.before.clone();
        let after = self.after.record();
        let (numbers, _, _, sizes) = allowed.box_record.lend();
        match (self.call, self.answer) {
            (Call::Open { .. }, 0) => {
                *numbers = after.numbers;
                let text = self.before.text(self.length);
                let line_feed = text.iter().rposition(|&byte| byte == b'\n');
                sizes[0] = line_feed.map_or(0, |place| place as u64 + 1);
                allowed.take_log(&after);
            }
            (Call::Open { .. }, 10) => sizes[1] = self.after.sizes()[1],
            (Call::Replay, 0) => {
                for place in [TERM, VOTE, LAST] {
                    numbers[place] = after.get(place);
                }
                // A line leaves a restart's record: what is not stored is 0.
                numbers[COMMIT..].fill(0);
                allowed.take_log(&after);
            }
            _ => {}
        }
        allowed
    }

    /// They agree and are both wrong.
    pub fn wrong(&self, what: &'static str) -> Box<Difference> {
        let side = (self.answer, self.after.clone());
        Box::new(Difference {
            what,
            call: self.call,
            length: self.length,
            before: self.before.clone(),
            ours: side.clone(),
            twin: side,
        })
    }
}

/// What to print at a difference: what was lent, and both answers with all
/// that they may touch.
pub struct Difference {
    what: &'static str,
    call: Call,
    length: usize,
    before: Lent,
    ours: (u8, Lent),
    twin: (u8, Lent),
}

/// Of a long text the end, where most is wrong that is wrong.
const PRINTED: usize = 20_000;

impl Difference {
    pub fn print(&self) -> Different {
        println!("difference: {}", self.what);
        match self.call {
            Call::Open { me } => println!("open, box {me}"),
            Call::Replay => println!("replay"),
        }
        let text = self.before.text(self.length);
        let printed = &text[text.len().saturating_sub(PRINTED)..];
        println!(
            "text of {}, its end: {}",
            text.len(),
            printed.escape_ascii()
        );
        println!("before, numbers in hexadecimal:");
        self.print_side(&self.before);
        for (side, (answer, after)) in [("ours", &self.ours), ("twin", &self.twin)] {
            println!("{side}: answer {answer}");
            self.print_side(after);
        }
        Different
    }

    fn print_side(&self, lent: &Lent) {
        let before = &self.before;
        lent.box_record.print(&before.box_record);
        if !lent.box_record.is_around(&before.box_record) || lent.text != before.text {
            println!("  and something beside what was lent");
        }
    }
}
