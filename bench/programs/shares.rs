//! Where the time goes: sessions that have one kind of line each, and what such a line
//! costs.

use twin::record::LEADER;

use crate::measured_input::{self, Session, HEAD, ME};
use crate::{check, order_in, run, written};

/// Some kinds of lines take no more than the start of a program if they are few.
const LINES: usize = 300_000;
const ROUNDS: usize = 10;

/// A box that follows, with a log of some hundred entries.
fn follower() -> Session {
    let mut session = Session::standing();
    while session.last() < 100 {
        session.append_at_end(4);
    }
    session
}

/// The same that leads: the others have all but the last four entries, the blank and
/// three orders.
fn leader() -> Session {
    let mut session = follower();
    session.elect();
    for _ in 0..3 {
        session.order();
    }
    session
}

/// The same, and the others have everything.
fn leader_of_all() -> Session {
    let mut session = leader();
    for from in [1, 2, 4, 5, 6, 7] {
        session.yes(from);
    }
    session
}

type Kind = (&'static str, fn() -> Session, fn(&mut Session));

/// A session's start, and the line that is then repeated. The names are those of a
/// session's kinds where it has them.
const KINDS: [Kind; 16] = [
    ("empty line: n1", follower, |s| s.say("", "")),
    ("order refused: n3", follower, |s| s.order()),
    ("timeout of a leader", leader, |s| s.say("", "t")),
    ("append 0", follower, |s| s.append_at_end(0)),
    ("append again", follower, |s| {
        s.append("", s.term(), s.last() - 2, 2)
    }),
    // Those that add something cut as well: the log would be full too soon.
    ("append 1", follower, |s| s.cut(1)),
    ("append 2", follower, |s| s.cut(2)),
    ("append 4", follower, |s| s.cut(4)),
    ("vote request", follower, Session::vote_request),
    ("vote answer", leader, |s| {
        let term = s.term();
        s.say("", &format!("010205{ME:02x}{term:08x}00"));
    }),
    ("append yes", leader_of_all, |s| s.yes(1)),
    ("append no", leader, |s| s.no(4)),
    ("prompt, all up to date", leader_of_all, |s| s.say("", "p")),
    ("prompt", leader, |s| s.say("", "p")),
    ("election", follower, |s| {
        s.elect();
        // Cuts the blank, and one more for the entry that it adds.
        s.append("", s.term() + 1, s.last() - 2, 1);
    }),
    ("order", follower, |s| {
        if s.last() == 256 || s.running.node.role != LEADER {
            s.cut(4);
            s.elect();
        }
        s.order();
    }),
];

/// A session and its start, as files.
struct Measured {
    name: &'static str,
    files: [String; 2],
    lines: usize,
    bytes_in: usize,
    bytes_out: usize,
    /// Of both programs for each of the files, in milliseconds. The least of several:
    /// what else the machine does only adds to them.
    least: [[f64; 2]; 2],
}

impl Measured {
    fn new(
        programs: [&str; 2],
        name: &'static str,
        start: &Session,
        session: &Session,
    ) -> Measured {
        let file = name.replace(|c: char| !c.is_ascii_alphanumeric(), "_");
        let files = [
            written(&format!("shares_{file}_start"), &start.text),
            written(&format!("shares_{file}"), &session.text),
        ];
        let [said_before, said_after] =
            [&files[0], &files[1]].map(|file| check(programs, file).len());
        let lines = session.lines - start.lines;
        Measured {
            name,
            lines,
            bytes_in: (session.text.len() - start.text.len()) / lines,
            bytes_out: (said_after - said_before) / lines,
            files,
            least: [[f64::MAX; 2]; 2],
        }
    }

    fn round(&mut self, programs: [&str; 2], round: usize) {
        for (file, least) in self.files.iter().zip(&mut self.least) {
            for side in order_in(round) {
                least[side] = least[side].min(run(programs[side], file));
            }
        }
    }

    /// Nanoseconds for each line after the start, ours and the twin's.
    fn nanos(&self) -> [f64; 2] {
        let [before, after] = self.least;
        [0, 1].map(|side| 1e6 * (after[side] - before[side]) / self.lines as f64)
    }

    fn print(&self, share: Option<f64>) {
        let [ours, twin] = self.nanos();
        let share = share.map_or(String::new(), |share| format!("{:.0} %", 100.0 * share));
        println!(
            "| {} | {} | {} | {ours:.0} | {twin:.0} | {:.2} | {share} |",
            self.name,
            self.bytes_in,
            self.bytes_out,
            ours / twin
        );
    }
}

/// Many lines of one kind.
fn of_kind(programs: [&str; 2], (name, start, line): Kind) -> Measured {
    let (start, mut session) = (start(), start());
    while session.lines < LINES {
        line(&mut session);
    }
    session.cut_text(LINES);
    Measured::new(programs, name, &start, &session)
}

/// A table, with the share that a kind of line has in the mixed session's time.
pub fn print(programs: [&str; 2]) {
    let (empty, mixed) = (Session::new(), measured_input::mixed());
    // As many bytes, but no line is one.
    let none = Session {
        text: HEAD.to_string() + &mixed.text[HEAD.len()..].replace(|c| c != '\n', "#"),
        ..mixed.clone()
    };
    let mut all = vec![
        Measured::new(programs, "the mixed session", &empty, &mixed),
        Measured::new(programs, "as many bytes, each line n1", &empty, &none),
    ];
    all.extend(KINDS.map(|kind| of_kind(programs, kind)));
    // All in turn, so that a busy minute meets each of them.
    for round in 0..ROUNDS {
        for measured in &mut all {
            measured.round(programs, round);
        }
    }

    println!("| Line | Bytes in | Bytes out | Ours, ns | Twin, ns | Ratio | Share of ours |");
    println!("|---|---|---|---|---|---|---|");
    let lines: usize = mixed.kinds.values().sum();
    let whole = all[0].nanos()[0] * lines as f64;
    for measured in &all {
        let times = mixed.kinds.get(measured.name);
        let share = |times: &usize| measured.nanos()[0] * *times as f64 / whole;
        measured.print(times.map(share));
    }
    for file in all.iter().flat_map(|measured| &measured.files) {
        std::fs::remove_file(file).expect("a file that was written");
    }
    let [ours, twin] = all[0].least[0];
    println!("\nStart and end of the program: ours {ours:.2} ms, the twin's {twin:.2} ms.");
}
