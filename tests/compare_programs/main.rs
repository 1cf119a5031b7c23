//! `compare_programs LINES SEED [JARGULMET REPLAY]`: the two programs against the
//! twin's, byte for byte, on sessions of at least LINES lines together and on
//! journals, drawn from SEED. An input comes at once, in pieces that end anywhere,
//! and line by line, where each answer is awaited.

use std::path::PathBuf;
use std::process::ExitCode;

use support::comparison::{self, Comparison, Different};
use support::counts::{Counts, Name};
use support::damage::DAMAGES;
use support::journals::Journal;
use support::random::Random;

mod deep_inputs;
mod expected_answers;
mod feeding;
mod first_lines;
mod journal_inputs;
mod lines_met;
mod no_lines;
mod program_run;
mod trouble;

use journal_inputs::Opening;
use program_run::Program;
use trouble::Trouble;

const DEFAULT_PATHS: [&str; 2] = ["target/tests/jargulmet", "target/tests/replay"];

/// Short inputs for each session.
const FIRST_LINES: usize = 4;
const EDGES: usize = 2;

/// Shorter journals are cut at every byte.
const CUT_AT_EVERY_BYTE: usize = 400;

struct ProgramComparison {
    r: Random,
    /// Of sessions, and of journals: some names are in both.
    counts: Counts,
    opened: Counts,
    sessions: usize,
    lines: usize,
    short: usize,
    journals: usize,
    jargulmet: Program,
    replay: Program,
}

impl ProgramComparison {
    /// A session of this number, fed at once and then in another manner.
    fn session(&mut self, number: u64) -> Result<(), Box<Trouble>> {
        let (r, counts) = (&mut self.r, &mut self.counts);
        let line_by_line = number % 3 == 0;
        let lines = match line_by_line {
            true => r.of(&[20, 60, 200, 400]),
            false if number % 16 == 5 => 12_000,
            false => r.of(&[100, 500, 900, 1500, 3000]),
        };
        let session = match number % 4 {
            0 => deep_inputs::alone(r, lines, counts)?,
            _ => deep_inputs::park(r, lines, counts)?,
        };
        self.sessions += 1;
        self.lines += session.lines();
        let mut output = Vec::new();
        twin::session::run(&session.input[..], &mut output).expect("memory");
        if output != session.output {
            return Err(Trouble::in_session(
                "the twin, whole and line by line",
                &session,
                &output,
            ));
        }

        counts.add("at_once");
        let heard = self.jargulmet.at_once(&session.input);
        trouble::compare("at_once", &session, heard)?;
        let (manner, pieces) = match line_by_line {
            true => ("line_by_line", feeding::line_by_line(&session)),
            false => ("in_pieces", feeding::pieces(r, &session)),
        };
        counts.add(manner);
        feeding::count(&session, &pieces, counts);
        let heard = self.jargulmet.in_pieces(&session.input, &pieces);
        trouble::compare(manner, &session, heard)
    }

    /// Lines at the end of what a program may read at once.
    fn edges(&mut self) -> Result<(), Box<Trouble>> {
        for _ in 0..EDGES {
            self.short += 1;
            let session = deep_inputs::at_edge(&mut self.r, &mut self.counts)?;
            let heard = self.jargulmet.at_once(&session.input);
            trouble::compare("at the end of a block", &session, heard)?;
        }
        Ok(())
    }

    /// First lines that are no head, or that have no line feed.
    fn first_lines(&mut self) -> Result<(), Box<Trouble>> {
        for _ in 0..FIRST_LINES {
            self.short += 1;
            let (input, expected) = first_lines::input(&mut self.r, &mut self.counts);
            let mut output = Vec::new();
            twin::session::run(&input[..], &mut output).expect("memory");
            let pieces = feeding::any_pieces(&mut self.r, &input);
            let heard = match self.r.one_in(2) {
                true => self.jargulmet.at_once(&input),
                false => self.jargulmet.in_pieces(&input, &pieces),
            };
            trouble::compare_short("jargulmet", &input, Some(expected), &output, heard)?;
        }
        Ok(())
    }

    fn open(&mut self, opening: &Opening) -> Result<(), Box<Trouble>> {
        self.journals += 1;
        let Opening { input, expected } = opening;
        let mut output = Vec::new();
        twin::replay::run(&input[..], &mut output).expect("memory");
        match &output[..] {
            b"n11\n" => self.opened.add_of("n", 11),
            [b'n', b'1', b'0', b' ', ..] => self.opened.add_of("n", 10),
            _ => self.opened.add("opened"),
        }
        let pieces = feeding::any_pieces(&mut self.r, input);
        let heard = match self.r.one_in(2) {
            true => self.replay.at_once(input),
            false => self.replay.in_pieces(input, &pieces),
        };
        trouble::compare_short("replay", input, expected.as_deref(), &output, heard)
    }

    fn openings(&mut self, number: u64) -> Result<(), Box<Trouble>> {
        let r = &mut self.r;
        let journal = match number % 16 {
            3 if number % 64 == 3 => Journal::long(r),
            5 | 11 => Journal::full(r),
            _ => {
                let lines = r.of(&[0, 1, 2, 3, 5, 8, 13, 40, 200]);
                Journal::made(r, lines)
            }
        };
        let mut all = journal_inputs::about(r, &journal, number as usize, &mut self.opened);
        if number % 64 == 6 {
            self.opened.add("cut_at_every_byte");
            let lines = r.of(&[4, 5, 6]);
            let mut journal = Journal::made(r, lines);
            while journal.text.len() > CUT_AT_EVERY_BYTE {
                journal = Journal::made(r, lines);
            }
            all.extend(journal_inputs::cut_at_every_byte(
                &journal,
                &mut self.opened,
            ));
        }
        all.iter().try_for_each(|opening| self.open(opening))
    }

    fn by_number(&mut self, number: u64) -> Result<(), Box<Trouble>> {
        self.session(number)?;
        self.edges()?;
        self.first_lines()?;
        self.openings(number)
    }
}

/// What a run has to reach: a case that no input reached was not compared.
fn wanted() -> Vec<Name> {
    let mut names = lines_met::wanted();
    names.extend(deep_inputs::WANTED.map(|name| (name, None)));
    names.extend((1..=7).map(|members| ("members", Some(members))));
    names.extend(deep_inputs::BLOCKS.map(|block| ("block", Some(block as u64))));
    names.extend(no_lines::KINDS.map(|(name, _)| (name, None)));
    let lengths = no_lines::SHORT.iter().chain(&no_lines::LONG);
    names.extend(lengths.map(|length| ("length", Some(*length as u64))));
    names.extend(DAMAGES.map(|(name, _)| (name, None)));
    names.extend(["random_bytes", "joined"].map(|name| (name, None)));
    names.extend(feeding::WANTED.map(|name| (name, None)));
    names.extend(first_lines::wanted());
    names
}

/// The same of journals.
fn wanted_of_journals() -> Vec<Name> {
    let mut names = vec![("n", Some(10)), ("n", Some(11))];
    names.extend(["opened", "cut_at_every_byte"].map(|name| (name, None)));
    names.extend(journal_inputs::wanted());
    names
}

impl Comparison for ProgramComparison {
    const NAME: &'static str = "programs";

    fn compared(&self) -> u64 {
        self.lines as u64
    }

    fn number(&mut self, seed: u64, number: u64) -> Result<(), Different> {
        self.r = Random::for_input(seed, number);
        self.by_number(number).map_err(|trouble| {
            trouble.print();
            println!("{}", self.jargulmet.keep(&trouble.input));
            Different
        })
    }

    fn cases(&self) -> Vec<(&Counts, Vec<Name>)> {
        vec![
            (&self.counts, wanted()),
            (&self.opened, wanted_of_journals()),
        ]
    }

    fn inputs(&self) -> String {
        let ProgramComparison {
            sessions,
            lines,
            short,
            journals,
            ..
        } = self;
        format!("{sessions} sessions of {lines} lines, {short} short ones and {journals} journals")
    }
}

/// Beside this program, in the folder of what is built.
fn input_file() -> PathBuf {
    let name = format!("in.{}", std::process::id());
    let path = std::env::current_exe().expect("this program's path");
    path.with_extension(name)
}

fn main() -> ExitCode {
    let file = input_file();
    let usage = "compare_programs LINES SEED [JARGULMET REPLAY]";
    let code = comparison::run(usage, |_, seed, paths| {
        let [jargulmet, replay] = match paths {
            [] => DEFAULT_PATHS,
            [jargulmet, replay] => [jargulmet.as_str(), replay],
            _ => return None,
        };
        Some(ProgramComparison {
            r: Random::for_input(seed, 0),
            counts: Counts::default(),
            opened: Counts::default(),
            sessions: 0,
            lines: 0,
            short: 0,
            journals: 0,
            jargulmet: Program::new(jargulmet, file.clone()),
            replay: Program::new(replay, file.clone()),
        })
    });
    // After a failure it stays, for whoever looks into it.
    if code == ExitCode::SUCCESS {
        let _ = std::fs::remove_file(file);
    }
    code
}
