//! What is opened of one journal that breaks no rule: the whole of it, cut, with
//! a torn end, with a line of every kind put in, and with a rule broken.

use support::bad_heads::HEADS;
use support::broken_lines::{rules, Broken};
use support::counts::Name;
use support::damage::{self, DAMAGES};
use support::journal_lines::{self, Stored, ADDS, CUTS_AND_ADDS, KINDS};
use support::journals::Journal;

use crate::opening_by_both::Difference;
use crate::{Expected, JournalComparison};

/// Longer journals are cut at some bytes only.
const CUT_AT_EVERY_BYTE: usize = 3000;

/// Broken rules for each journal.
pub const BROKEN: usize = 100;

/// For a line that fits the stored part at some place and can break the rule.
const PLACES: usize = 6;
const LINES: usize = 4;

const WANTED: [&str; 12] = [
    "whole",
    "whole_with_longer_log_before",
    "cut_to_nothing",
    "cut_in_head",
    "cut_after_head",
    "cut_in_line",
    "cut_before_line_feed",
    "cut_after_line",
    "cut_at_every_byte",
    "torn",
    "line_feed_at_end_doubled",
    "bad_head_and_bad_line",
];

/// Each rule with each kind of line that it can be broken in.
pub fn broken_in_kinds() -> Vec<(&'static Broken, usize)> {
    let in_kinds = |rule: &'static Broken| rule.kinds.iter().map(move |kind| (rule, *kind));
    rules().flat_map(in_kinds).collect()
}

pub fn wanted() -> Vec<Name> {
    let mut names = WANTED.map(|name| (name, None)).to_vec();
    names.extend(KINDS.map(|(name, _)| (name, None)));
    names.extend(HEADS.iter().map(|(name, _)| (*name, None)));
    names.extend(DAMAGES.map(|(name, _)| (name, None)));
    let broken = broken_in_kinds();
    names.extend(
        broken
            .iter()
            .map(|(rule, kind)| (rule.name, Some(*kind as u64))),
    );
    names
}

impl JournalComparison {
    pub fn all_about(
        &mut self,
        journal: &Journal,
        at_every_byte: bool,
    ) -> Result<(), Box<Difference>> {
        self.counts.add("whole");
        let longer = |stored: &Stored| stored.last() > journal.last().last();
        let longer_before = journal.after.iter().any(longer);
        self.counts
            .add_each(&[(longer_before, "whole_with_longer_log_before")]);
        self.cut(journal, journal.text.len())?;
        match at_every_byte && journal.text.len() <= CUT_AT_EVERY_BYTE {
            true => self.cut_at_every_byte(journal)?,
            false => self.cut_at_some_bytes(journal)?,
        }
        self.torn(journal)?;
        self.good_lines(journal)?;
        self.bad_heads(journal)?;
        for _ in 0..BROKEN {
            self.broken_somewhere(journal)?;
        }
        self.damaged(journal)?;
        self.line_by_line(journal)
    }

    /// Opens the first bytes; what follows them lies behind.
    pub fn cut(&mut self, journal: &Journal, length: usize) -> Result<(), Box<Difference>> {
        let whole = journal.whole(length);
        let expected = match whole {
            0 => Expected::NoHead,
            _ => Expected::Opened(&journal.after[whole - 1]),
        };
        let at_end = journal.ends.contains(&length);
        let lacks_one = journal.ends.contains(&(length + 1));
        self.counts.add_each(&[
            (length == 0, "cut_to_nothing"),
            (length > 0 && whole == 0, "cut_in_head"),
            (whole == 1 && at_end, "cut_after_head"),
            (whole > 0 && !at_end, "cut_in_line"),
            (whole > 0 && lacks_one, "cut_before_line_feed"),
            (whole > 1 && at_end, "cut_after_line"),
        ]);
        let me = journal.after[0].me;
        self.open(me, &journal.text, length, expected)?;
        Ok(())
    }

    fn cut_at_every_byte(&mut self, journal: &Journal) -> Result<(), Box<Difference>> {
        self.counts.add("cut_at_every_byte");
        for length in 0..journal.text.len() {
            self.cut(journal, length)?;
        }
        Ok(())
    }

    fn cut_at_some_bytes(&mut self, journal: &Journal) -> Result<(), Box<Difference>> {
        for _ in 0..8 {
            let end = self.r.of(&journal.ends);
            self.cut(journal, end)?;
            self.cut(journal, end - 1)?;
            let any = self.r.below(journal.text.len());
            self.cut(journal, any)?;
        }
        Ok(())
    }

    /// Any bytes without a line feed after the last one.
    fn torn(&mut self, journal: &Journal) -> Result<(), Box<Difference>> {
        for _ in 0..4 {
            self.counts.add("torn");
            let mut torn = match self.r.below(3) {
                0 => damage::random_bytes(&mut self.r),
                1 => journal.rest(1).to_vec(),
                _ => journal_lines::any(&mut self.r, journal.last()).text(),
            };
            torn.retain(|&byte| byte != b'\n');
            let text = [&journal.text, &torn[..]].concat();
            let expected = Expected::Opened(journal.last());
            self.open(journal.after[0].me, &text, text.len(), expected)?;
        }
        self.counts.add("line_feed_at_end_doubled");
        let text = [&journal.text, &b"\n"[..]].concat();
        let expected = Expected::BadLine(journal.ends.len() as u64 + 1);
        self.open(journal.after[0].me, &text, text.len(), expected)?;
        Ok(())
    }

    /// A line of each kind after some line, and another one after it.
    fn good_lines(&mut self, journal: &Journal) -> Result<(), Box<Difference>> {
        for (name, make) in KINDS {
            let place = self.r.between(1, journal.ends.len() as u64) as usize;
            let stored = &journal.after[place - 1];
            let Some(line) = make(&mut self.r, stored) else {
                continue;
            };
            self.counts.add(name);
            let mut start = journal.text[..journal.ends[place - 1]].to_vec();
            start.extend(line.text());
            let after = stored.after(&line);
            let expected = Expected::Opened(&after);
            self.open(stored.me, &start, start.len(), expected)?;
            let next = journal_lines::any(&mut self.r, &after);
            start.extend(next.text());
            let expected = Expected::Opened(&after.after(&next));
            self.open(stored.me, &start, start.len(), expected)?;
        }
        Ok(())
    }

    /// A head that is none, before the journal's lines, bad ones, or nothing.
    fn bad_heads(&mut self, journal: &Journal) -> Result<(), Box<Difference>> {
        let fresh = &journal.after[0];
        for _ in 0..6 {
            let (name, make) = self.r.of(&HEADS);
            let Some((asked, mut text)) = make(&mut self.r, fresh.me, fresh.mask) else {
                continue;
            };
            self.counts.add(name);
            match self.r.below(4) {
                0 => {}
                1 => {
                    self.counts.add("bad_head_and_bad_line");
                    text.extend(b"no line\n");
                }
                _ => text.extend(journal.rest(1)),
            }
            self.open(asked, &text, text.len(), Expected::NoHead)?;
        }
        Ok(())
    }

    fn next_rule(&mut self) -> (&'static Broken, usize) {
        self.turn += 1;
        self.broken[self.turn % self.broken.len()]
    }

    /// The next rule in turn, broken in a line after some other.
    pub fn broken_somewhere(&mut self, journal: &Journal) -> Result<(), Box<Difference>> {
        let (rule, kind) = self.next_rule();
        for _ in 0..PLACES {
            let lines = journal.ends.len() as u64;
            let place = match self.r.below(4) {
                0 => 1,
                1 => lines,
                _ => self.r.between(1, lines),
            };
            if self.broken_after(journal, place as usize, rule, kind)? {
                break;
            }
        }
        Ok(())
    }

    /// The next rule in turn that can be broken in a last line.
    pub fn broken_at_end(&mut self, journal: &Journal) -> Result<(), Box<Difference>> {
        loop {
            let (rule, kind) = self.next_rule();
            if self.broken_after(journal, journal.ends.len(), rule, kind)? {
                return Ok(());
            }
        }
    }

    /// Of a full log.
    pub fn past_256(&mut self, journal: &Journal) -> Result<(), Box<Difference>> {
        let rule = rules().find(|rule| rule.name == "past_256");
        for kind in [ADDS, CUTS_AND_ADDS] {
            self.broken_after(journal, journal.ends.len(), rule.expect("one"), kind)?;
        }
        Ok(())
    }

    /// The rule broken in a line of the kind after so many others, if it can be.
    fn broken_after(
        &mut self,
        journal: &Journal,
        place: usize,
        rule: &Broken,
        kind: usize,
    ) -> Result<bool, Box<Difference>> {
        let stored = &journal.after[place - 1];
        let make = |_| {
            let line = KINDS[kind].1(&mut self.r, stored)?;
            (rule.make)(&mut self.r, stored, line)
        };
        let Some(bad) = (0..LINES).find_map(make) else {
            return Ok(false);
        };
        self.counts.add_of(rule.name, kind as u64);
        let mut text = journal.text[..journal.ends[place - 1]].to_vec();
        text.extend(&bad);
        match self.r.below(4) {
            0 => {}
            1 => text.extend(b"torn"),
            2 => text.extend(b"\nno line\n"),
            _ => text.extend(journal.rest(place)),
        }
        let expected = Expected::BadLine(place as u64 + 1);
        self.open(stored.me, &text, text.len(), expected)?;
        self.bad_line(stored, &bad)?;
        Ok(true)
    }

    /// A line or the whole journal damaged, which may well leave a journal.
    fn damaged(&mut self, journal: &Journal) -> Result<(), Box<Difference>> {
        for _ in 0..4 {
            let (name, damage) = self.r.of(&DAMAGES);
            self.counts.add(name);
            let place = self.r.between(1, journal.ends.len() as u64) as usize;
            let text = match journal.ends.get(place) {
                Some(&end) if self.r.one_in(2) => {
                    let start = journal.ends[place - 1];
                    let line = damage(&mut self.r, journal.text[start..end].to_vec());
                    [&journal.text[..start], &line, &journal.text[end..]].concat()
                }
                _ => damage(&mut self.r, journal.text.clone()),
            };
            let me = journal.after[0].me;
            self.open(me, &text, text.len(), Expected::Unknown)?;
        }
        Ok(())
    }
}
