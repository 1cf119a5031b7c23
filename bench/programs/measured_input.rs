//! Sessions for the measures, made line by line with the twin's box beside them:
//! frames have to fit its log.

use std::collections::BTreeMap;

use support::measure::spread;
use twin::session::{Running, LONGEST_ANSWER};

pub const LINES: usize = 100_000;

/// Box 3 of seven.
pub const ME: u8 = 3;
pub const HEAD: &str = "0111037f\n";

/// Entries that stay when the log is cut; they are committed.
const STANDING: u16 = 8;

/// Kinds of lines: appends by the entries that they add.
const APPENDS: [&str; 5] = ["append 0", "append 1", "append 2", "append 3", "append 4"];

#[derive(Clone)]
pub struct Session {
    pub text: String,
    pub running: Running,
    pub lines: usize,
    /// Lines of each kind.
    pub kinds: BTreeMap<&'static str, usize>,
}

impl Session {
    pub fn new() -> Session {
        let started = Running::start(HEAD.as_bytes(), &mut [0; LONGEST_ANSWER]);
        Session {
            text: HEAD.into(),
            running: started.expect("a box").0,
            lines: 1,
            kinds: BTreeMap::new(),
        }
    }

    pub fn say(&mut self, kind: &'static str, line: &str) {
        let line = format!("{line}\n");
        self.running.take(line.as_bytes(), &mut [0; LONGEST_ANSWER]);
        self.text += &line;
        self.lines += 1;
        *self.kinds.entry(kind).or_default() += 1;
    }

    fn number(&self) -> u64 {
        self.lines as u64
    }

    pub fn term(&self) -> u32 {
        self.running.node.term
    }

    pub fn last(&self) -> u16 {
        self.running.node.last
    }

    /// The box that leads in this term, which is not this one.
    fn leader(&self) -> u8 {
        [1, 2, 4, 5, 6, 7][self.term() as usize % 6]
    }

    /// An append of so many entries after this index, in this term.
    pub fn append(&mut self, kind: &'static str, term: u32, previous: u16, count: u16) {
        let past = match previous {
            0 => 0,
            _ => self.running.terms[usize::from(previous) - 1],
        };
        let commit = STANDING.min(self.last());
        let entry = |n| format!("{term:08x}{:016x}", spread(self.number() + u64::from(n)));
        let entries: String = (0..count).map(entry).collect();
        let from = self.leader();
        let fixed = format!("0103{from:02x}{ME:02x}{term:08x}{previous:04x}{past:08x}");
        self.say(kind, &format!("{fixed}{commit:04x}{count:02x}{entries}"));
    }

    /// At the log's end, as many as there is room for.
    pub fn append_at_end(&mut self, count: u16) {
        let (term, last) = (self.term(), self.last());
        let count = count.min(256 - last);
        self.append(APPENDS[usize::from(count)], term, last, count);
    }

    /// A new leader has other entries: all that is not committed goes.
    pub fn cut(&mut self, count: u16) {
        let kept = STANDING.min(self.last());
        let kind = APPENDS[usize::from(count)];
        self.append(kind, self.term() + 1, kept, count);
    }

    pub fn vote_request(&mut self) {
        let (term, last, from) = (self.term(), self.last(), self.leader());
        let past = self.running.terms[usize::from(last) - 1].min(term - 1);
        let request = format!("0101{from:02x}{ME:02x}{term:08x}{last:04x}{past:08x}");
        self.say("vote request", &request);
    }

    pub fn elect(&mut self) {
        self.say("timeout", "t");
        let term = self.term();
        for (from, yes) in [(5, 0), (1, 1), (6, 1), (2, 1), (7, 1)] {
            self.say(
                "vote answer",
                &format!("0102{from:02x}{ME:02x}{term:08x}{yes:02x}"),
            );
        }
    }

    pub fn order(&mut self) {
        let order = spread(self.number());
        self.say("order", &format!("o{order:016x}"));
    }

    pub fn yes(&mut self, from: u8) {
        let (term, last) = (self.term(), self.last());
        self.say(
            "append yes",
            &format!("0104{from:02x}{ME:02x}{term:08x}01{last:04x}"),
        );
    }

    pub fn no(&mut self, from: u8) {
        let term = self.term();
        self.say(
            "append no",
            &format!("0104{from:02x}{ME:02x}{term:08x}000000"),
        );
    }

    /// So many orders. Two of six have each entry and say so; that is no majority,
    /// so that the log can be cut again and the session go on.
    fn lead(&mut self, orders: u16) {
        self.elect();
        for number in 0..orders.min(256 - self.last()) {
            self.order();
            self.yes(1);
            self.yes(6);
            match number % 10 {
                3 => self.no(4),
                7 => self.say("prompt", "p"),
                _ => {}
            }
        }
    }

    /// Appends as they come, up to this length of the log.
    fn follow(&mut self, length: u16) {
        for count in [0, 1, 1, 2, 0, 1, 4, 1, 0, 2].into_iter().cycle() {
            if self.last() > length {
                return;
            }
            self.append_at_end(count);
            match self.number() % 16 {
                // An old one comes again.
                5 => self.append("append again", self.term(), self.last() - 2, 2),
                11 => self.vote_request(),
                _ => {}
            }
        }
    }

    /// Again and again, up to all lines.
    fn of(cycle: fn(&mut Session)) -> Session {
        let mut session = Session::standing();
        while session.lines < LINES {
            cycle(&mut session);
        }
        session.cut_text(LINES);
        session
    }

    /// A box that has what stays.
    pub fn standing() -> Session {
        let mut session = Session::new();
        while session.last() < STANDING {
            session.cut(4);
        }
        session
    }

    /// A cycle may end past the last line.
    pub fn cut_text(&mut self, lines: usize) {
        let (end, _) = self.text.match_indices('\n').nth(lines - 1).expect("lines");
        self.text.truncate(end + 1);
        self.lines = lines;
    }
}

/// Follower, election, leader, and another leader's log.
pub fn mixed() -> Session {
    Session::of(|session| {
        session.follow(190);
        session.lead(45);
        session.cut(4);
    })
}

pub fn appends() -> Session {
    Session::of(|session| {
        session.follow(250);
        session.cut(4);
    })
}

pub fn orders() -> Session {
    Session::of(|session| {
        session.lead(200);
        session.cut(4);
    })
}
