//! `compare_journal COUNT SEED`: the proved opening against the twin's, on at
//! least COUNT journals drawn from SEED: such as boxes wrote, made of random lines,
//! cut, and with a rule broken. Beside them single lines over a record.

use std::process::ExitCode;

use support::broken_lines::Broken;
use support::comparison::{self, Comparison, Different};
use support::counts::{Counts, Name};
use support::journal_lines::Stored;
use support::journals::Journal;
use support::numbers::{COMMIT, LAST, NUMBERS, TERM};
use support::random::Random;
use support::records::{Record, LAST_TERM};
use twin::flat_record;

mod around_a_journal;
mod boxes_that_write;
mod opening_by_both;
mod single_lines;

use opening_by_both::{Call, Difference, Lent, OpeningByBoth};

/// What is known of a journal without either side.
#[derive(Clone, Copy)]
enum Expected<'a> {
    Opened(&'a Stored),
    BadLine(u64),
    NoHead,
    Unknown,
}

struct JournalComparison {
    r: Random,
    counts: Counts,
    /// Journals taken by both.
    opened: u64,
    /// What is lent, with the record and the log of the number at hand.
    lent: Lent,
    /// A broken rule and a kind of line, all of them in turn.
    broken: Vec<(&'static Broken, usize)>,
    turn: usize,
}

/// A restart: what is not stored is 0, and every rule holds.
fn is_restarted(record: &Record) -> bool {
    let node = flat_record::from_flat(&record.numbers);
    record.numbers[COMMIT..] == [0; NUMBERS - COMMIT]
        && node.is_some_and(|node| node.is_good(&record.terms))
}

/// What the two agree on may be wrong all the same.
fn judge(done: &OpeningByBoth, expected: Expected) -> Result<(), Box<Difference>> {
    let record = done.after.record();
    let right = match (done.answer, expected) {
        (0, Expected::Opened(stored)) => Stored::of(&record) == *stored,
        (10, Expected::BadLine(number)) => done.after.sizes()[1] == number,
        (11, Expected::NoHead) => true,
        (0 | 10 | 11, Expected::Unknown) => true,
        _ => false,
    };
    if !right {
        return Err(done.wrong("both, not what the journal says"));
    }
    if done.answer == 0 && !is_restarted(&record) {
        return Err(done.wrong("both, no record of a restart"));
    }
    Ok(())
}

impl JournalComparison {
    fn new(seed: u64) -> JournalComparison {
        let mut r = Random::for_input(seed, 0);
        let record = Record::with_any_log([0; NUMBERS], &mut r);
        JournalComparison {
            lent: Lent::new(&record, &mut r),
            r,
            counts: Counts::default(),
            opened: 0,
            broken: around_a_journal::broken_in_kinds(),
            turn: 0,
        }
    }

    /// Opens so many of these bytes: the record, or None when they are refused.
    fn open(
        &mut self,
        me: u64,
        bytes: &[u8],
        length: usize,
        expected: Expected,
    ) -> Result<Option<Record>, Box<Difference>> {
        self.opened += 1;
        self.lent.set_text(bytes, &mut self.r);
        let done = OpeningByBoth::new(Call::Open { me: me as u8 }, &self.lent, length)?;
        judge(&done, expected)?;
        self.counts.add_of("open", done.answer.into());
        let (opened, record) = (done.answer == 0, done.after.record());
        let [whole, number] = done.after.sizes();
        self.counts.add_each(&[
            (opened && whole > 0xffff, "bytes_above_65535"),
            (opened && record.get(LAST) == 0, "opened_empty_log"),
            (opened && record.get(LAST) == 256, "opened_full_log"),
            (opened && record.get(TERM) == 0, "opened_in_term_0"),
            (
                opened && record.get(TERM) == LAST_TERM,
                "opened_in_last_term",
            ),
            (done.answer == 10 && number == 2, "bad_line_2"),
            (done.answer == 10 && number > 0xff, "bad_line_above_255"),
            (done.answer == 10 && number > 0xffff, "bad_line_above_65535"),
        ]);
        Ok(opened.then_some(record))
    }

    fn made(&mut self) -> Result<(), Box<Difference>> {
        let lines = self.r.of(&[0, 1, 2, 3, 5, 8, 13, 21, 34, 55]);
        let journal = Journal::made(&mut self.r, lines);
        let at_every_byte = self.r.one_in(8);
        self.all_about(&journal, at_every_byte)
    }

    fn full(&mut self) -> Result<(), Box<Difference>> {
        self.counts.add("made_full");
        let journal = Journal::full(&mut self.r);
        self.all_about(&journal, false)?;
        self.past_256(&journal)
    }

    fn long(&mut self) -> Result<(), Box<Difference>> {
        self.counts.add("made_long");
        let journal = Journal::long(&mut self.r);
        self.cut(&journal, journal.text.len())?;
        for _ in 0..6 {
            let any = self.r.below(journal.text.len());
            self.cut(&journal, any)?;
            self.broken_somewhere(&journal)?;
            self.broken_at_end(&journal)?;
        }
        Ok(())
    }

    fn by_number(&mut self, seed: u64, number: u64) -> Result<(), Box<Difference>> {
        self.r = Random::for_input(seed, number);
        // A number's rules follow from it alone, and each number has the next ones.
        self.turn = around_a_journal::BROKEN * number as usize;
        let record = Record::with_any_log([self.r.next(); NUMBERS], &mut self.r);
        self.lent = Lent::new(&record, &mut self.r);
        match number % 16 {
            0 => self.park(),
            1 | 2 => self.alone(),
            3 if number % 1024 == 3 => self.long(),
            3 | 4 => self.full(),
            5..=8 => self.replays(number / 16),
            _ => self.made(),
        }
    }
}

/// What a run has to reach: a case that no journal reached was not compared.
fn wanted() -> Vec<Name> {
    let mut names: Vec<Name> = Vec::new();
    names.extend([0, 10, 11].map(|answer| ("open", Some(answer))));
    names.extend([0, 10, 12].map(|answer| ("replay", Some(answer))));
    let plain = [
        "bytes_above_65535",
        "opened_empty_log",
        "opened_full_log",
        "opened_in_term_0",
        "opened_in_last_term",
        "bad_line_2",
        "bad_line_above_255",
        "bad_line_above_65535",
        "made_full",
        "made_long",
    ];
    names.extend(plain.map(|name| (name, None)));
    names.extend(boxes_that_write::WANTED.map(|name| (name, None)));
    names.extend(around_a_journal::wanted());
    names.extend(single_lines::wanted());
    names
}

impl Comparison for JournalComparison {
    const NAME: &'static str = "journal";

    fn compared(&self) -> u64 {
        self.opened
    }

    fn number(&mut self, seed: u64, number: u64) -> Result<(), Different> {
        self.by_number(seed, number)
            .map_err(|difference| difference.print())
    }

    fn cases(&self) -> Vec<(&Counts, Vec<Name>)> {
        vec![(&self.counts, wanted())]
    }

    fn inputs(&self) -> String {
        format!("{} journals", self.opened)
    }
}

fn main() -> ExitCode {
    comparison::run("compare_journal COUNT SEED", |_, seed, more| {
        more.is_empty().then(|| JournalComparison::new(seed))
    })
}
