//! Milliseconds for whole runs of the two programs, ours and the twin's, on the same
//! files, in turn. One line each: NAME OURS TWIN RATIO.
//!
//! `programs` measures `target/bin/jargulmet` and `target/bin/replay`; two other
//! programs may be named. `programs shares` prints instead where the time goes.

use std::fs::File;
use std::process::{Command, ExitCode, Stdio};
use std::time::Instant;

use support::measure::{self, spread};

mod measured_input;
mod shares;

use measured_input::{HEAD, LINES, ME};

const FOLDER: &str = "target/bench";
const OURS: [&str; 2] = ["target/bin/jargulmet", "target/bin/replay"];
const TWIN: [&str; 2] = ["target/tests/twin_jargulmet", "target/tests/twin_replay"];

/// Odd, so that the median is one round's reading.
const ROUNDS: usize = 15;

/// As the journal's own measure: lines of none to four entries, and a log that has
/// no room for more is cut.
fn journal() -> String {
    let mut text = format!("{ME}\n{HEAD}");
    let mut last = 0;
    for (n, count) in (0..LINES as u64 - 1).zip([0, 1, 1, 2, 4].into_iter().cycle()) {
        let kept = if last > 252 { 100 } else { last };
        let (term, vote) = (n / 50 + 1, n / 50 % 7 + 1);
        let entry = |entry| format!("{term:08x}{:016x}", spread(n + entry));
        let entries: String = (0..count).map(entry).collect();
        text += &format!("0110{ME:02x}{term:08x}{vote:02x}{kept:04x}{count:02x}{entries}\n");
        last = kept + count;
    }
    text
}

fn written(name: &str, text: &str) -> String {
    let path = format!("{FOLDER}/{name}.txt");
    std::fs::write(&path, text).expect("a file of the input");
    path
}

fn command(program: &str, file: &str) -> Command {
    let mut command = Command::new(program);
    command.stdin(File::open(file).expect("the input"));
    command
}

fn output(program: &str, file: &str) -> Vec<u8> {
    let run = command(program, file).output().expect("a program");
    assert!(run.status.success(), "{program} {file}");
    run.stdout
}

/// A program that does nothing, or something else, would win for nothing.
fn check([ours, twin]: [&str; 2], file: &str) -> Vec<u8> {
    let (by_us, by_twin) = (output(ours, file), output(twin, file));
    assert!(by_us == by_twin && !by_us.is_empty(), "{ours} {file}");
    by_us
}

/// Milliseconds from the start of the program to its end.
fn run(program: &str, file: &str) -> f64 {
    let mut command = command(program, file);
    command.stdout(Stdio::null());
    let start = Instant::now();
    let status = command.status().expect("a program");
    let time = 1000.0 * start.elapsed().as_secs_f64();
    assert!(status.success());
    time
}

/// Which of the two goes first: each in every other round, since the second finds
/// the file and the machine warm.
fn order_in(round: usize) -> [usize; 2] {
    [[0, 1], [1, 0]][round % 2]
}

/// Medians of rounds in which the two take turns. Nothing in it is refused, which
/// would cost little.
fn measure(name: &str, programs: [&str; 2], file: &str) {
    let said = check(programs, file);
    assert!(!said.contains(&b'n'), "{file}");
    let mut readings = [Vec::new(), Vec::new()];
    for round in 0..ROUNDS {
        for side in order_in(round) {
            readings[side].push(run(programs[side], file));
        }
    }
    measure::print(name, readings, 2);
}

fn main() -> ExitCode {
    let words: Vec<String> = std::env::args().skip(1).collect();
    let of_shares = words.first().is_some_and(|word| word == "shares");
    let paths: Vec<&str> = words.iter().skip(of_shares.into()).map(|w| &**w).collect();
    let [jargulmet, replay] = match paths[..] {
        [] => OURS,
        [jargulmet, replay] => [jargulmet, replay],
        _ => {
            eprintln!("usage: programs [shares] [JARGULMET REPLAY]");
            return ExitCode::from(2);
        }
    };
    let [session, journal_of] = [[jargulmet, TWIN[0]], [replay, TWIN[1]]];
    if of_shares {
        shares::print(session);
        return ExitCode::SUCCESS;
    }
    let mixed = written("session", &measured_input::mixed().text);
    let appends = written("appends", &measured_input::appends().text);
    let orders = written("orders", &measured_input::orders().text);
    measure(&format!("session_{LINES}_ms"), session, &mixed);
    measure("session_appends_ms", session, &appends);
    measure("session_orders_ms", session, &orders);
    measure(
        "replay_program_ms",
        journal_of,
        &written("journal", &journal()),
    );
    ExitCode::SUCCESS
}
