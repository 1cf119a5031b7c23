//! The input and output of `crates/replay`: a journal of box 3 of mask 1f, in which
//! votes are given, entries added and cut, and whose last line is torn. What is stored
//! in the end is worked out here on a plain list.
//!
//! `replay_journal input` prints the box asked for and its journal.
//! `replay_journal output` prints what the program has to say to it.

use std::process::ExitCode;

use support::worked_out;

const ME: u8 = 3;
const MASK: u8 = 0x1f;
const TERMS: u32 = 32;

/// What is stored, and the lines that led there.
struct Journal {
    text: String,
    lines: usize,
    term: u32,
    vote: u8,
    /// Term and order.
    log: Vec<(u32, u64)>,
}

impl Journal {
    fn new() -> Journal {
        Journal {
            text: format!("0111{ME:02x}{MASK:02x}\n"),
            lines: 1,
            term: 0,
            vote: 0,
            log: Vec::new(),
        }
    }

    /// A line that keeps so many entries and adds these; before it, term and vote
    /// have been set.
    fn line(&mut self, kept: usize, added: &[(u32, u64)]) {
        let Journal { term, vote, .. } = *self;
        let count = added.len();
        self.text += &format!("0110{ME:02x}{term:08x}{vote:02x}{kept:04x}{count:02x}");
        for (term, order) in added {
            self.text += &format!("{term:08x}{order:016x}");
        }
        self.text.push('\n');
        self.lines += 1;
        self.log.truncate(kept);
        self.log.extend(added);
    }

    /// A higher term, in which nobody has the vote yet, or this box has.
    fn term(&mut self, term: u32, vote: u8) {
        (self.term, self.vote) = (term, vote);
        self.line(self.log.len(), &[]);
    }

    fn add(&mut self, count: u32) {
        self.replace(self.log.len(), count);
    }

    /// So many entries of the term after those that are kept. Each order says where
    /// it was written.
    fn replace(&mut self, kept: usize, count: u32) {
        let line = self.lines as u64 + 1;
        let orders = (0..count).map(|number| line << 32 | u64::from(number));
        let added: Vec<(u32, u64)> = orders.map(|order| (self.term, order)).collect();
        self.line(kept, &added);
    }
}

/// A term in which the box follows, leads or is brought back, in turn.
fn in_term(journal: &mut Journal, term: u32) {
    match term % 4 {
        // It votes, in a second line, and gets entries.
        1 => {
            journal.term(term, 0);
            journal.vote = (term % 5) as u8 + 1;
            journal.line(journal.log.len(), &[]);
            journal.add(4);
            journal.add(term % 4 + 1);
        }
        // It stands and leads, and its blank comes first.
        2 => {
            journal.term(term, ME);
            journal.line(journal.log.len(), &[(term, 0)]);
            journal.add(1);
            journal.add(1);
            journal.add(1);
        }
        // Another log is newer: cut in the line that tells of the term.
        3 => {
            let kept = journal.log.len() - 3;
            (journal.term, journal.vote) = (term, 0);
            journal.replace(kept, 2);
            journal.add(3);
            journal.add(4);
        }
        // Deeper, and with nothing added after it.
        _ => {
            journal.term(term, (term % 5) as u8 + 1);
            let kept = journal.log.len() - 5;
            journal.line(kept, &[]);
            journal.add(2);
        }
    }
}

fn journal() -> Journal {
    let mut journal = Journal::new();
    for term in 1..=TERMS {
        in_term(&mut journal, term);
    }
    journal.term(0x89ab_cdef, 5);
    journal.add(4);
    journal
}

/// After the last line feed: the next line but for its end.
const TAIL: &str = "01100389abcdef05";

fn main() -> ExitCode {
    let journal = journal();
    let input = format!("{ME}\n{}{TAIL}", journal.text);
    let (bytes, length) = (journal.text.len(), journal.log.len());
    let mut output = format!("{bytes} {} {} {length}\n", journal.term, journal.vote);
    for (term, order) in &journal.log {
        output += &format!("{term:08x}{order:016x}\n");
    }

    let mut twin = Vec::new();
    twin::replay::run(input.as_bytes(), &mut twin).expect("memory");
    if twin != output.as_bytes() {
        eprintln!("by hand:\n{output}the twin:\n{}", twin.escape_ascii());
        return ExitCode::FAILURE;
    }

    worked_out::print("replay_journal", input.as_bytes(), output.as_bytes())
}
