//! A session: a head and lines for its box, with what has to be said to each. The
//! box is the twin's; lines are told apart here once more, simply.

use support::counts::Counts;
use support::journal_lines::head;
use support::records::Record;
use twin::flat_record::to_flat;
use twin::session::{Running, LONGEST_ANSWER};

use crate::lines_met::{self, Taken};

pub struct Session {
    pub input: Vec<u8>,
    pub output: Vec<u8>,
    /// Bytes of the input and of the output up to and with each whole line.
    pub ends: Vec<(usize, usize)>,
    pub running: Running,
}

/// A box's answer to a line, and the frames in it.
pub fn answer(running: &mut Running, line: &[u8]) -> (Vec<u8>, Vec<Vec<u8>>) {
    let mut room = [0; LONGEST_ANSWER];
    let bytes = running.take(line, &mut room);
    let lines = room[..bytes].split_inclusive(|&byte| byte == b'\n');
    let frames = lines.filter(|line| line.starts_with(b"010") && line[3] != b'0');
    let frames = frames.map(<[u8]>::to_vec).collect();
    (room[..bytes].to_vec(), frames)
}

pub fn started(me: u64, mask: u64) -> Running {
    let started = Running::start(&head(me, mask), &mut [0; LONGEST_ANSWER]);
    started.expect("a box").0
}

impl Session {
    pub fn new(me: u64, mask: u64) -> Session {
        let head = head(me, mask);
        Session {
            output: head.clone(),
            ends: vec![(head.len(), head.len())],
            input: head,
            running: started(me, mask),
        }
    }

    pub fn lines(&self) -> usize {
        self.ends.len()
    }

    pub fn record(&self) -> Record {
        Record {
            numbers: to_flat(&self.running.node),
            terms: self.running.terms,
            orders: self.running.orders,
        }
    }

    /// Any bytes, which may end several lines or none. Gives the frames that are
    /// said to them.
    pub fn say(&mut self, bytes: &[u8], counts: &mut Counts) -> Vec<Vec<u8>> {
        let mut frames = Vec::new();
        for part in bytes.split_inclusive(|&byte| byte == b'\n') {
            self.input.extend(part);
            if part.ends_with(b"\n") {
                frames.extend(self.end_line(counts));
            }
        }
        frames
    }

    fn end_line(&mut self, counts: &mut Counts) -> Vec<Vec<u8>> {
        let &(start, _) = self.ends.last().expect("the head");
        let line = &self.input[start..];
        let before = self.running.clone();
        let (answer, frames) = answer(&mut self.running, line);
        let taken = Taken {
            line,
            before: &before,
            answer: &answer,
            after: &self.running,
        };
        lines_met::count(&taken, counts);
        self.output.extend(answer);
        self.ends.push((self.input.len(), self.output.len()));
        frames
    }
}
