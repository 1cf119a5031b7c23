//! Single lines over a record: a journal's own, one after the other, bad ones, and
//! lines over a record that nobody has checked.

use support::broken_records::{self, ANY, BROKEN};
use support::counts::Name;
use support::journal_lines::{self, Line, Stored, LONGEST_LOG, MOST_ENTRIES};
use support::journals::Journal;
use support::numbers::{COMMIT, LAST, ME, MEMBERS, NUMBERS, TERM, VOTE};
use support::random::Random;
use support::records::{self, boxes, term_within, Record, GOOD, LAST_TERM};

use crate::opening_by_both::{Call, Difference, Lent, OpeningByBoth};
use crate::JournalComparison;

/// Longer journals are not taken line by line.
const LINES: usize = 300;

const WANTED: [&str; 16] = [
    "line_by_line",
    "line_empty",
    "line_without_line_feed",
    "line_and_another",
    "line_is_head",
    "12_before_10",
    // Over a record that breaks a rule, taken.
    "taken_by_no_box",
    "taken_by_no_membership",
    "taken_over_log_above_256",
    "taken_over_commit_past_log",
    "taken_over_term_0_at_kept",
    "taken_over_entries_that_fall",
    // And refused by a rule of the line's.
    "refused_for_term_at_kept",
    "refused_for_vote_of_a_stranger_that_stays",
    "refused_for_vote_8_in_mask_bit_7",
    "refused_for_kept_257_in_log_above_256",
];

pub fn wanted() -> Vec<Name> {
    let mut names = WANTED.map(|name| (name, None)).to_vec();
    names.extend((0..NUMBERS).map(|place| ("too_large", Some(place as u64))));
    names
}

/// What is known of a line without either side.
#[derive(Clone, Copy)]
enum Replayed<'a> {
    Next(&'a Record),
    Bad,
    TooLarge,
    /// Bad, or else this.
    NextOrBad(&'a Record),
}

fn store(record: &mut Record, stored: &Stored) {
    // A line leaves a restart's record: what is not stored is 0.
    record.numbers[COMMIT..].fill(0);
    record.set(TERM, stored.term);
    record.set(VOTE, stored.vote);
    record.set(LAST, stored.last());
    for (place, (term, order)) in stored.log.iter().enumerate() {
        record.terms[place] = *term as u32;
        record.orders[place] = *order;
    }
}

/// What the line leaves if it is taken; None where that is longer than a log.
fn next(record: &Record, line: &Line) -> Option<Record> {
    let end = line.kept + line.count;
    if end > LONGEST_LOG {
        return None;
    }
    let mut next = record.clone();
    next.numbers[COMMIT..].fill(0);
    next.set(TERM, line.term);
    next.set(VOTE, line.vote);
    next.set(LAST, end);
    for (place, (term, order)) in (line.kept as usize..).zip(&line.entries) {
        next.terms[place] = *term as u32;
        next.orders[place] = *order;
    }
    Some(next)
}

/// The record's number there, at most that.
fn at_most(record: &Record, place: usize, most: u64) -> u64 {
    record.get(place).min(most)
}

/// What stands at an index, 0 where there is no place for an entry.
fn term_at(record: &Record, index: u64) -> u64 {
    match index {
        1..=LONGEST_LOG => record.terms[index as usize - 1].into(),
        _ => 0,
    }
}

fn near_kept(r: &mut Random, record: &Record) -> u64 {
    let last = at_most(record, LAST, LONGEST_LOG);
    match r.below(8) {
        0 => r.between(last, last + 1),
        1 => at_most(record, LAST, 0xffff),
        2 => LONGEST_LOG + 1,
        3 => last,
        _ => r.edged(0, last),
    }
}

fn near_term(r: &mut Random, record: &Record, at_kept: u64) -> u64 {
    let own = at_most(record, TERM, LAST_TERM);
    let term = match r.below(6) {
        0 => own.saturating_sub(1),
        1 => at_kept,
        2 => at_kept.saturating_sub(1),
        3 => at_kept.max(own),
        _ => own + r.between(0, 1),
    };
    let least = u64::from(!r.one_in(9));
    term.clamp(least, LAST_TERM)
}

fn near_vote(r: &mut Random, record: &Record) -> u64 {
    let members = boxes(record.get(MEMBERS));
    let any = r.between(1, 7);
    match r.below(6) {
        0 => 0,
        1 => r.of(&[8, 255, any]),
        2 if record.get(MEMBERS) & 0x80 != 0 => 8,
        2 | 3 if !members.is_empty() => r.of(&members),
        _ => at_most(record, VOTE, 255),
    }
}

/// A line near the record's own numbers, whatever these are.
fn near(r: &mut Random, record: &Record) -> Line {
    let kept = near_kept(r, record);
    let mut low = term_at(record, kept);
    let term = near_term(r, record, low);
    let most = LONGEST_LOG.saturating_sub(kept).clamp(1, MOST_ENTRIES);
    let mut entries = Vec::new();
    for _ in 0..r.between(0, most) {
        let high = term.max(1);
        low = term_within(r, low.clamp(1, high), high);
        entries.push((low, records::order(r)));
    }
    let me = at_most(record, ME, 255);
    Line {
        me: if r.one_in(12) { (me + 1) % 256 } else { me },
        term,
        vote: near_vote(r, record),
        kept,
        ..Stored::default().line()
    }
    .with(entries)
}

impl JournalComparison {
    /// The record with the stored part; the other numbers, and what stands past
    /// the log, are any.
    fn record_of(&mut self, stored: &Stored) -> Record {
        let mut record = self.lent.record();
        record.set(ME, stored.me);
        record.set(MEMBERS, stored.mask);
        store(&mut record, stored);
        record.numbers[COMMIT..].fill_with(|| self.r.between(0, 255));
        record
    }

    fn replay(
        &mut self,
        record: &Record,
        bytes: &[u8],
        length: usize,
        expected: Replayed,
    ) -> Result<u8, Box<Difference>> {
        let mut lent = Lent::new(record, &mut self.r);
        lent.set_text(bytes, &mut self.r);
        let done = OpeningByBoth::new(Call::Replay, &lent, length)?;
        let right = match (done.answer, expected) {
            (0, Replayed::Next(next) | Replayed::NextOrBad(next)) => done.after.record() == *next,
            (10, Replayed::Bad | Replayed::NextOrBad(_)) => true,
            (12, Replayed::TooLarge) => true,
            _ => false,
        };
        if !right {
            return Err(done.wrong("both, not what the line says"));
        }
        self.counts.add_of("replay", done.answer.into());
        Ok(done.answer)
    }

    /// A line that breaks a rule over the stored part.
    pub fn bad_line(&mut self, stored: &Stored, line: &[u8]) -> Result<(), Box<Difference>> {
        let record = self.record_of(stored);
        self.replay(&record, line, line.len(), Replayed::Bad)?;
        Ok(())
    }

    /// What opening does, one line at a time; the rest of the journal lies behind.
    pub fn line_by_line(&mut self, journal: &Journal) -> Result<(), Box<Difference>> {
        if journal.ends.len() > LINES {
            return Ok(());
        }
        self.counts.add("line_by_line");
        let mut record = self.record_of(&journal.after[0]);
        for (place, after) in journal.after.iter().enumerate().skip(1) {
            let bytes = journal.rest(place);
            let length = journal.ends[place] - journal.ends[place - 1];
            // What is cut stays where it stood, past the end.
            let mut next = record.clone();
            store(&mut next, after);
            self.replay(&record, bytes, length, Replayed::Next(&next))?;
            record = next;
        }
        self.not_one_line(journal, &record)
    }

    /// Bytes that are not one whole line, before the journal's next one.
    fn not_one_line(&mut self, journal: &Journal, record: &Record) -> Result<(), Box<Difference>> {
        let line = journal_lines::any(&mut self.r, journal.last());
        let next = journal_lines::any(&mut self.r, &journal.last().after(&line));
        let (text, head) = (line.text(), journal.last().head());
        let both = [text.clone(), next.text()].concat();
        for (name, bytes, length) in [
            ("line_empty", &text, 0),
            ("line_without_line_feed", &text, text.len() - 1),
            ("line_and_another", &both, both.len()),
            ("line_is_head", &head, head.len()),
        ] {
            self.counts.add(name);
            self.replay(record, bytes, length, Replayed::Bad)?;
        }
        Ok(())
    }

    /// Lines over records of all sorts.
    pub fn replays(&mut self, turn: u64) -> Result<(), Box<Difference>> {
        for step in 0..12 {
            let place = (12 * turn + step) as usize;
            let (_, make) = match step % 4 {
                0 => GOOD[place % GOOD.len()],
                1 => ANY[place % ANY.len()],
                _ => BROKEN[place % BROKEN.len()],
            };
            let record = make(&mut self.r);
            for _ in 0..8 {
                self.any_line(&record)?;
            }
            self.too_large(place % NUMBERS)?;
        }
        Ok(())
    }

    fn any_line(&mut self, record: &Record) -> Result<(), Box<Difference>> {
        let line = near(&mut self.r, record);
        let text = line.text();
        let next = next(record, &line);
        let expected = match &next {
            _ if !fits(record) => Replayed::TooLarge,
            Some(next) => Replayed::NextOrBad(next),
            None => Replayed::Bad,
        };
        match self.replay(record, &text, text.len(), expected)? {
            0 => self.taken(record, &line),
            10 => self.refused(record, &line),
            _ => {}
        }
        Ok(())
    }

    fn taken(&mut self, record: &Record, line: &Line) {
        let get = |place: usize| record.get(place);
        let (me, mask) = (get(ME), get(MEMBERS));
        let log = &record.terms[..line.kept as usize];
        self.counts.add_each(&[
            (!(1..=7).contains(&me), "taken_by_no_box"),
            (
                (1..=7).contains(&me) && (mask > 0x7f || mask >> (me - 1) & 1 == 0),
                "taken_by_no_membership",
            ),
            (get(LAST) > LONGEST_LOG, "taken_over_log_above_256"),
            (get(COMMIT) > get(LAST), "taken_over_commit_past_log"),
            (log.last() == Some(&0), "taken_over_term_0_at_kept"),
            (!log.is_sorted(), "taken_over_entries_that_fall"),
        ]);
    }

    /// By one rule alone, as far as the line obeys the others by its making.
    fn refused(&mut self, record: &Record, line: &Line) {
        let get = |place: usize| record.get(place);
        let own = line.me == get(ME) && line.term >= get(TERM).max(1);
        let within = line.kept <= get(LAST);
        let fits = within && line.kept + line.count <= LONGEST_LOG;
        let stays = line.term > get(TERM) || get(VOTE) == 0 || get(VOTE) == line.vote;
        let member = |vote: u64| (1..=7).contains(&vote) && get(MEMBERS) >> (vote - 1) & 1 == 1;
        let votes = stays && (line.vote == 0 || member(line.vote));
        let in_order = term_at(record, line.kept) <= line.term;
        self.counts.add_each(&[
            (
                own && fits && votes && !in_order && line.count == 0,
                "refused_for_term_at_kept",
            ),
            (
                own && fits && in_order && line.term == get(TERM) && line.vote == get(VOTE),
                "refused_for_vote_of_a_stranger_that_stays",
            ),
            (
                own && fits && in_order && stays && line.vote == 8 && get(MEMBERS) & 0x80 != 0,
                "refused_for_vote_8_in_mask_bit_7",
            ),
            (
                own && within && votes && line.kept == LONGEST_LOG + 1 && line.count == 0,
                "refused_for_kept_257_in_log_above_256",
            ),
        ]);
    }

    /// A number past its field, with a line that the record would take or not.
    fn too_large(&mut self, place: usize) -> Result<(), Box<Difference>> {
        let record = broken_records::too_large(&mut self.r, place);
        let line = near(&mut self.r, &record).text();
        let length = match self.r.one_in(3) {
            true => {
                self.counts.add("12_before_10");
                line.len() - 1
            }
            false => line.len(),
        };
        self.counts.add_of("too_large", place as u64);
        self.replay(&record, &line, length, Replayed::TooLarge)?;
        Ok(())
    }
}

/// Each number fits its field.
fn fits(record: &Record) -> bool {
    (0..NUMBERS).all(|place| record.get(place) >> broken_records::width(place) == 0)
}
