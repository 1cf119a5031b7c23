//! Journals that boxes write: of the twin's boxes, alone with random frames or in
//! a park. A box that loses power is opened from what it has written, and goes on
//! from there; what it then holds must be what it held.

use support::journal_lines::{self, Stored};
use support::journals::Journal;
use support::numbers::{LAST, LEADER, ME, NUMBERS, ROLE};
use support::random::Random;
use support::received_frames;
use support::records::{self, Record};
use support::sides::TWIN;
use support::under_way::UnderWay;

use crate::opening_by_both::Difference;
use crate::{Expected, JournalComparison};

/// More than any step writes.
const LINE: usize = 119;
/// A line with one entry.
const ONE_ENTRY: usize = 47;
const ROOM: usize = 786;

const MOST_FRAMES: usize = 32;

pub const WANTED: [&str; 10] = [
    "session_alone",
    "session_in_park",
    "session_restart",
    "session_restart_torn",
    "session_cut",
    "session_full_log",
    "session_of_head_only",
    "session_won_with_blank",
    "session_won_at_once_with_blank",
    "session_won_with_full_log",
];

enum Event {
    Timeout,
    Prompt,
    Order(u64),
    Receive(Vec<u8>),
}

/// A box and what it has written.
struct Member {
    record: Record,
    journal: Journal,
    /// How it has won, in the names above.
    won: Vec<&'static str>,
}

impl Member {
    fn fresh(r: &mut Random, me: u64, mask: u64) -> Member {
        let mut record = Record::with_any_log([0; NUMBERS], r);
        let mut head = [0; 9];
        let answer = (TWIN.start)(me as u8, mask as u8, &mut record.numbers, &mut head);
        assert_eq!(answer, 256 * 9, "a box");
        let journal = Journal::new(&head, Stored::of(&record));
        Member {
            record,
            journal,
            won: Vec::new(),
        }
    }

    /// Takes the event and writes its line; gives what it sends.
    fn take(&mut self, event: Event) -> Vec<Vec<u8>> {
        let led = self.record.get(ROLE) == LEADER;
        let at_once = matches!(event, Event::Timeout);
        let Record {
            numbers,
            terms,
            orders,
        } = &mut self.record;
        let (mut line, mut room, mut sizes) = ([0; LINE], [0; ROOM], [0; 2]);
        let (line, room) = (&mut line, &mut room);
        let answer = match event {
            Event::Timeout => (TWIN.timeout)(numbers, terms, orders, line, room, &mut sizes),
            Event::Prompt => (TWIN.prompt)(numbers, terms, orders, line, room, &mut sizes),
            Event::Order(order) => {
                (TWIN.order)(order, numbers, terms, orders, line, room, &mut sizes)
            }
            Event::Receive(text) => {
                (TWIN.receive)(&text, numbers, terms, orders, line, room, &mut sizes)
            }
        };
        if answer != 0 {
            return Vec::new();
        }
        let [written, sent] = sizes.map(|size| size as usize);
        if !led && self.record.get(ROLE) == LEADER {
            self.won.push(match (written, at_once) {
                (ONE_ENTRY, true) => "session_won_at_once_with_blank",
                (ONE_ENTRY, false) => "session_won_with_blank",
                _ => "session_won_with_full_log",
            });
        }
        if written > 0 {
            let stored = Stored::of(&self.record);
            self.journal.push(&line[..written], stored);
        }
        let messages = room[..sent].split_inclusive(|&byte| byte == b'\n');
        messages.map(<[u8]>::to_vec).collect()
    }
}

struct Park {
    members: Vec<Member>,
    frames: UnderWay,
    /// Nothing goes wrong, and orders come fast.
    calm: bool,
}

impl Park {
    fn leaders(&self) -> Vec<usize> {
        let leads = |at: &usize| self.members[*at].record.get(ROLE) == LEADER;
        (0..self.members.len()).filter(leads).collect()
    }

    fn number(&self, at: usize) -> u64 {
        self.members[at].record.get(ME)
    }
}

impl JournalComparison {
    /// One box that gets frames near its record, of which many cut.
    pub fn alone(&mut self) -> Result<(), Box<Difference>> {
        self.counts.add("session_alone");
        let (me, mask) = records::membership(&mut self.r);
        let mut member = Member::fresh(&mut self.r, me, mask);
        for _ in 0..self.r.of(&[0, 5, 20, 60, 200, 200]) {
            let event = match self.r.below(24) {
                0 => Event::Timeout,
                1..=5 => Event::Order(records::order(&mut self.r)),
                _ => Event::Receive(self.frame(&member.record)),
            };
            member.take(event);
            if self.r.one_in(40) {
                self.restart(&mut member)?;
            }
        }
        self.written(&member, true)
    }

    /// Rarely one of the last terms, in which a box stays for good.
    fn frame(&mut self, record: &Record) -> Vec<u8> {
        loop {
            let text = received_frames::frame(&mut self.r, record);
            if !text[8..].starts_with(b"ffff") || self.r.one_in(60) {
                return text;
            }
        }
    }

    /// Several boxes that send each other what they say.
    pub fn park(&mut self) -> Result<(), Box<Difference>> {
        self.counts.add("session_in_park");
        let (_, mask) = records::membership(&mut self.r);
        let fresh = |me: u64| Member::fresh(&mut self.r, me, mask);
        let mut park = Park {
            members: records::boxes(mask).into_iter().map(fresh).collect(),
            frames: UnderWay::at_most(MOST_FRAMES),
            calm: self.r.one_in(4),
        };
        for _ in 0..self.r.of(&[60, 200, 600, 2500]) {
            if self.r.one_in(60) && !park.calm {
                park.frames.cut_off = self.r.between(0, 7);
            }
            self.park_event(&mut park)?;
        }
        let whole = self.r.below(park.members.len());
        for (at, member) in park.members.iter().enumerate() {
            self.written(member, at == whole)?;
        }
        Ok(())
    }

    fn park_event(&mut self, park: &mut Park) -> Result<(), Box<Difference>> {
        let any = self.r.below(park.members.len());
        let leaders = park.leaders();
        let unheard = !leaders
            .iter()
            .any(|at| park.number(*at) != park.frames.cut_off);
        let leader = match leaders[..] {
            [] => any,
            _ => self.r.of(&leaders),
        };
        let order = records::order(&mut self.r);
        let sent = match self.r.below(240) {
            0 if !park.calm => park.members[any].take(Event::Timeout),
            1..=14 if unheard => park.members[any].take(Event::Timeout),
            15..=54 => park.members[leader].take(Event::Order(order)),
            55..=70 => park.members[leader].take(Event::Prompt),
            71 if !park.calm => {
                self.restart(&mut park.members[any])?;
                Vec::new()
            }
            72..=150 if park.calm => park.members[leader].take(Event::Order(order)),
            _ => self.deliver(park),
        };
        park.frames.send(sent, &mut self.r);
        Ok(())
    }

    /// A frame that is under way arrives, or is lost: what is sent then.
    fn deliver(&mut self, park: &mut Park) -> Vec<Vec<u8>> {
        let Some(frame) = park.frames.next(&mut self.r) else {
            return Vec::new();
        };
        let to = park.frames.reaches(&frame);
        let at = (0..park.members.len()).find(|at| Some(park.number(*at)) == to);
        match at {
            Some(at) => park.members[at].take(Event::Receive(frame)),
            None => Vec::new(),
        }
    }

    /// The box is opened from its journal, after which a line may be torn.
    fn restart(&mut self, member: &mut Member) -> Result<(), Box<Difference>> {
        self.counts.add("session_restart");
        let Journal { text, .. } = &mut member.journal;
        let whole = text.len();
        let stored = Stored::of(&member.record);
        if self.r.one_in(2) {
            self.counts.add("session_restart_torn");
            let line = journal_lines::any(&mut self.r, &stored).text();
            text.extend(&line[..self.r.below(line.len())]);
        }
        let opened = self.open(stored.me, text, text.len(), Expected::Opened(&stored))?;
        text.truncate(whole);
        member.record = opened.expect("what was expected");
        Ok(())
    }

    /// All about a journal that a box wrote.
    fn written(&mut self, member: &Member, at_every_byte: bool) -> Result<(), Box<Difference>> {
        let lengths = member.journal.after.windows(2);
        let cut = lengths.clone().any(|pair| {
            let kept = pair[0].log.iter().zip(&pair[1].log);
            kept.take_while(|(one, other)| one == other).count() < pair[0].log.len()
        });
        self.counts.add_each(&[
            (cut, "session_cut"),
            (member.record.get(LAST) == 256, "session_full_log"),
            (lengths.len() == 0, "session_of_head_only"),
        ]);
        for name in &member.won {
            self.counts.add(name);
        }
        self.all_about(&member.journal, at_every_byte)
    }
}
