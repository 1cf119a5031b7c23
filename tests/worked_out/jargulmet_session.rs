//! The input and output of `crates/jargulmet`: one session of 01's small program, box
//! 1 of mask 07, with what it says to each line worked out by hand. A park of one is
//! another session, which is held to the twin alone.
//!
//! `jargulmet_session input` prints the session.
//! `jargulmet_session output` prints what the program has to say to it.

use std::process::ExitCode;

use support::text::lines;
use support::worked_out;

struct Step {
    line: Vec<u8>,
    /// Written by hand.
    answer: String,
}

struct Steps(Vec<Step>);

impl Steps {
    /// A line, and the lines that are said to it.
    fn says(&mut self, line: &str, answer: &[&str]) {
        self.0.push(Step {
            line: lines(&[line]).into_bytes(),
            answer: lines(answer),
        });
    }

    /// A line just as it is, its line feed included, which is none.
    fn no_line(&mut self, line: &[u8]) {
        self.0.push(Step {
            line: line.to_vec(),
            answer: "n1\n".into(),
        });
    }
}

fn steps() -> Vec<Step> {
    let mut s = Steps(Vec::new());
    elected(&mut s);
    orders(&mut s);
    refused_at_a_leader(&mut s);
    lines_that_are_none(&mut s);
    steps_down(&mut s);
    follows(&mut s);
    alarms(&mut s);
    loses_an_election(&mut s);
    brings_a_box_up(&mut s);
    full_log(&mut s);
    wins_with_a_full_log(&mut s);
    last_term(&mut s);
    s.0
}

/// The blank of term 1: its own, and the first entry.
const ENTRY_1: &str = "00000001 0000000000000000";

const ZEROS: &str = "o 0000000000000000";

/// 01's reading, and box 2's yes from there. Zeros are no order for a client, but
/// who does not lead says so first.
fn elected(s: &mut Steps) {
    s.says("01 11 01 07", &["01 11 01 07"]);
    s.says(ZEROS, &["n3"]);
    s.says(
        "t",
        &[
            "01 10 01 00000001 01 0000 00",
            "01 01 01 02 00000001 0000 00000000",
            "01 01 01 03 00000001 0000 00000000",
        ],
    );
    s.says(ZEROS, &["n3"]);
    s.says(
        "01 02 02 01 00000001 01",
        &[
            &format!("01 10 01 00000001 01 0000 01 {ENTRY_1}"),
            &format!("01 03 01 02 00000001 0000 00000000 0000 01 {ENTRY_1}"),
            &format!("01 03 01 03 00000001 0000 00000000 0000 01 {ENTRY_1}"),
        ],
    );
    s.says(ZEROS, &["n13"]);
}

const ENTRY_2: &str = "00000001 0123456789abcdef";
const ENTRY_3: &str = "00000001 0000000000000001";

fn orders(s: &mut Steps) {
    s.says(
        "o 0123456789abcdef",
        &[
            &format!("01 10 01 00000001 01 0001 01 {ENTRY_2}"),
            &format!("01 03 01 02 00000001 0000 00000000 0000 02 {ENTRY_1} {ENTRY_2}"),
            &format!("01 03 01 03 00000001 0000 00000000 0000 02 {ENTRY_1} {ENTRY_2}"),
        ],
    );
    // Yes from 2 to index 1: the blank is committed, which the next append carries.
    s.says(
        "01 04 02 01 00000001 01 0001",
        &[&format!(
            "01 03 01 02 00000001 0001 00000001 0001 01 {ENTRY_2}"
        )],
    );
    s.says("01 04 02 01 00000001 01 0002", &[]);
    let to_2 = format!("01 03 01 02 00000001 0002 00000001 0002 01 {ENTRY_3}");
    let to_3 = format!("01 03 01 03 00000001 0000 00000000 0002 03 {ENTRY_1} {ENTRY_2} {ENTRY_3}");
    s.says(
        "o 0000000000000001",
        &[
            &format!("01 10 01 00000001 01 0002 01 {ENTRY_3}"),
            &to_2,
            &to_3,
        ],
    );
    s.says("p", &[&to_2, &to_3]);
    // Next is 1 and does not fall below it.
    s.says("01 04 03 01 00000001 00 0000", &[&to_3]);
    s.says("t", &[]);
    // It leads already; box 3's yes comes late.
    s.says("01 02 03 01 00000001 01", &[]);
    s.says("01 04 03 01 00000001 01 0003", &[]);
    // The first yes a second time: box 2 still lacks entry 3.
    s.says(
        "01 04 02 01 00000001 01 0001",
        &[&format!(
            "01 03 01 02 00000001 0002 00000001 0003 01 {ENTRY_3}"
        )],
    );
    s.says("01 04 02 01 00000001 01 0003", &[]);
}

/// None of these leaves a trace, whatever its term.
fn refused_at_a_leader(s: &mut Steps) {
    for (from, to) in [("02", "03"), ("01", "01"), ("04", "01"), ("07", "02")] {
        s.says(&format!("01 02 {from} {to} 00000009 01"), &["n2"]);
    }
    s.says("01 03 02 01 00000001 0000 00000000 0000 00", &["n6"]);
    s.says("01 04 02 01 00000001 01 0004", &["n8"]);
    s.says("01 04 03 01 00000001 01 0100", &["n8"]);
    s.says(ZEROS, &["n13"]);
    s.says(
        "p",
        &[
            "01 03 01 02 00000001 0003 00000001 0003 00",
            "01 03 01 03 00000001 0003 00000001 0003 00",
        ],
    );
}

fn lines_that_are_none(s: &mut Steps) {
    for line in [
        "",
        " ",
        "\r",
        "t\r",
        "t ",
        " t",
        "T",
        "tt",
        "p\0",
        "\0",
        "o",
        "o0123456789abcde",
        "o0123456789abcdef0",
        "o0123456789abcdeF",
        "o0123456789abcdeg",
        "o 0123456789abcdef",
        "o000000000000000",
        "o00000000000000000",
        "0123456789abcdef",
        "n1",
        // A head and a journal line, the next one that it could write.
        "01110107",
        "0110010000000201000300",
        // A digit A, then a frame cut short, with a digit more, and twice.
        "01020201000000010A",
        "01020201000000010",
        "0102020100000001010",
        "010202010000000101010202010000000101",
    ] {
        s.no_line(format!("{line}\n").as_bytes());
    }
    s.no_line(b"\xff\n");
    // As long as the longest frame, and longer.
    for length in [130, 131, 132, 5000] {
        s.no_line(format!("{}\n", "0".repeat(length)).as_bytes());
    }
    // The end of a line is no line.
    s.no_line(format!("{}t\n", "0".repeat(4096)).as_bytes());
}

fn steps_down(s: &mut Steps) {
    // Box 3 stands in term 2 and lacks entry 3.
    s.says(
        "01 01 03 01 00000002 0002 00000001",
        &["01 10 01 00000002 00 0003 00", "01 02 01 03 00000002 00"],
    );
    s.says("p", &["n3"]);
    s.says("o 0123456789abcdef", &["n3"]);
    s.says(ZEROS, &["n3"]);
    s.no_line(b"o0123456789abcdeg\n");
    // Box 2 has all; asked again, it gets the same answer.
    let request = "01 01 02 01 00000002 0003 00000001";
    s.says(
        request,
        &["01 10 01 00000002 02 0003 00", "01 02 01 02 00000002 01"],
    );
    s.says(request, &["01 02 01 02 00000002 01"]);
    // The vote is given; and a request of an older term.
    s.says(
        "01 01 03 01 00000002 0003 00000001",
        &["01 02 01 03 00000002 00"],
    );
    s.says(
        "01 01 03 01 00000001 0000 00000000",
        &["01 02 01 03 00000002 00"],
    );
    // Answers of the older term, one of them to what it no longer is.
    s.says("01 02 03 01 00000001 01", &[]);
    s.says("01 04 03 01 00000001 01 0003", &[]);
}

// Box 2's blank and an order of it; box 3's blank and an order of it.
const ENTRY_4: &str = "00000002 0000000000000000";
const OLD_ENTRY_5: &str = "00000002 5555555555555555";
const ENTRY_5: &str = "00000003 0000000000000000";
const ENTRY_6: &str = "00000003 ff00000000000006";

fn follows(s: &mut Steps) {
    s.says(
        &format!("01 03 02 01 00000002 0003 00000001 0003 02 {ENTRY_4} {OLD_ENTRY_5}"),
        &[
            &format!("01 10 01 00000002 02 0003 02 {ENTRY_4} {OLD_ENTRY_5}"),
            "01 04 01 02 00000002 01 0005",
        ],
    );
    // Commit becomes 4, as alarm 7 will tell.
    s.says(
        "01 03 02 01 00000002 0005 00000002 0004 00",
        &["01 04 01 02 00000002 01 0005"],
    );
    // An entry that is not there, and one of another term.
    s.says(
        "01 03 02 01 00000002 0009 00000002 0004 00",
        &["01 04 01 02 00000002 00 0000"],
    );
    s.says(
        "01 03 02 01 00000002 0005 00000001 0004 00",
        &["01 04 01 02 00000002 00 0000"],
    );
    // An old append again: it names its own end, and entry 5 is still there.
    s.says(
        &format!("01 03 02 01 00000002 0003 00000001 0003 01 {ENTRY_4}"),
        &["01 04 01 02 00000002 01 0004"],
    );
    s.says(
        "01 03 02 01 00000002 0005 00000002 0004 00",
        &["01 04 01 02 00000002 01 0005"],
    );
    // An append of an older term.
    s.says(
        "01 03 03 01 00000001 0000 00000000 0000 00",
        &["01 04 01 03 00000002 00 0000"],
    );
    // Box 3 leads in term 3 and has another entry 5: cut there.
    s.says(
        &format!("01 03 03 01 00000003 0004 00000002 0004 02 {ENTRY_5} {ENTRY_6}"),
        &[
            &format!("01 10 01 00000003 00 0004 02 {ENTRY_5} {ENTRY_6}"),
            "01 04 01 03 00000003 01 0006",
        ],
    );
}

fn alarms(s: &mut Steps) {
    // Entries 2 to 4 are committed; a higher term does not help.
    for cuts in [
        "0001 00000001 0004 01 00000003 2222222222222222",
        "0003 00000001 0004 01 00000003 0000000000000000",
    ] {
        s.says(&format!("01 03 03 01 00000003 {cuts}"), &["n7"]);
        s.says(&format!("01 03 02 01 00000009 {cuts}"), &["n7"]);
    }
    // The term is still 3.
    s.says(
        "01 01 02 01 00000003 0006 00000002",
        &["01 02 01 02 00000003 00"],
    );
}

/// A timeout in the term before, with a log that ends so.
fn stands(s: &mut Steps, term: u8, last: &str) {
    let kept = &last[..4];
    s.says(
        "t",
        &[
            &format!("01 10 01 000000{term:02x} 01 {kept} 00"),
            &format!("01 01 01 02 000000{term:02x} {last}"),
            &format!("01 01 01 03 000000{term:02x} {last}"),
        ],
    );
}

/// Box 2's blank.
const ENTRY_7: &str = "00000005 0000000000000000";

fn loses_an_election(s: &mut Steps) {
    stands(s, 4, "0006 00000003");
    s.says("01 02 02 01 00000004 00", &[]);
    stands(s, 5, "0006 00000003");
    s.says("01 02 03 01 00000004 01", &[]);
    // Another asks in its own term: it has voted for itself.
    s.says(
        "01 01 02 01 00000005 0007 00000004",
        &["01 02 01 02 00000005 00"],
    );
    // Box 2 has won: back to follower, and entries 5 and 6 are committed.
    s.says(
        &format!("01 03 02 01 00000005 0006 00000003 0006 01 {ENTRY_7}"),
        &[
            &format!("01 10 01 00000005 01 0006 01 {ENTRY_7}"),
            "01 04 01 02 00000005 01 0007",
        ],
    );
    s.says("01 02 03 01 00000005 01", &[]);
    s.says("p", &["n3"]);
    stands(s, 6, "0007 00000005");
}

/// Its own blank, and the order after it.
const ENTRY_8: &str = "00000006 0000000000000000";
const ENTRY_9: &str = "00000006 9999999999999999";

fn brings_a_box_up(s: &mut Steps) {
    s.says(
        "01 02 03 01 00000006 01",
        &[
            &format!("01 10 01 00000006 01 0007 01 {ENTRY_8}"),
            &format!("01 03 01 02 00000006 0007 00000005 0006 01 {ENTRY_8}"),
            &format!("01 03 01 03 00000006 0007 00000005 0006 01 {ENTRY_8}"),
        ],
    );
    // Box 3 steps back entry by entry.
    for append in [
        format!("0006 00000003 0006 02 {ENTRY_7} {ENTRY_8}"),
        format!("0005 00000003 0006 03 {ENTRY_6} {ENTRY_7} {ENTRY_8}"),
        format!("0004 00000002 0006 04 {ENTRY_5} {ENTRY_6} {ENTRY_7} {ENTRY_8}"),
        format!("0003 00000001 0006 04 {ENTRY_4} {ENTRY_5} {ENTRY_6} {ENTRY_7}"),
    ] {
        s.says(
            "01 04 03 01 00000006 00 0000",
            &[&format!("01 03 01 03 00000006 {append}")],
        );
    }
    // Entry 7 is an older term's: two boxes have it, and it is not committed.
    s.says(
        "01 04 03 01 00000006 01 0007",
        &[&format!(
            "01 03 01 03 00000006 0007 00000005 0006 01 {ENTRY_8}"
        )],
    );
    // With the blank it is, and no order has come.
    s.says("01 04 03 01 00000006 01 0008", &[]);
    s.says(
        "p",
        &[
            &format!("01 03 01 02 00000006 0007 00000005 0008 01 {ENTRY_8}"),
            "01 03 01 03 00000006 0008 00000006 0008 00",
        ],
    );
    s.says(
        "o 9999999999999999",
        &[
            &format!("01 10 01 00000006 01 0008 01 {ENTRY_9}"),
            &format!("01 03 01 02 00000006 0007 00000005 0008 02 {ENTRY_8} {ENTRY_9}"),
            &format!("01 03 01 03 00000006 0008 00000006 0008 01 {ENTRY_9}"),
        ],
    );
    s.says("01 04 03 01 00000006 01 0009", &[]);
    s.says(
        "p",
        &[
            &format!("01 03 01 02 00000006 0007 00000005 0009 02 {ENTRY_8} {ENTRY_9}"),
            "01 03 01 03 00000006 0009 00000006 0009 00",
        ],
    );
}

/// Entry i of the leader in term 7 has the order i, but for the first, its blank.
fn entries(from: u16, count: u16) -> String {
    let orders = (from..from + count).map(|index| if index == 10 { 0 } else { index });
    let entries = orders.map(|order| format!("00000007 {order:016x}"));
    entries.collect()
}

fn full_log(s: &mut Steps) {
    // Box 2 leads in term 7 and sends entries 10 to 254, four at a time.
    for previous in (9..254).step_by(4) {
        let count = (254 - previous).min(4);
        let past = if previous == 9 { 6 } else { 7 };
        let added = entries(previous + 1, count);
        s.says(
            &format!("01 03 02 01 00000007 {previous:04x} {past:08x} 0009 {count:02x} {added}"),
            &[
                &format!("01 10 01 00000007 00 {previous:04x} {count:02x} {added}"),
                &format!("01 04 01 02 00000007 01 {:04x}", previous + count),
            ],
        );
    }
    stands(s, 8, "00fe 00000007");
    let blank = "00000008 0000000000000000";
    let last = "00000008 ffffffffffffffff";
    let first = |to: &str| format!("01 03 01 {to} 00000008 00fe 00000007 0009 01 {blank}");
    s.says(
        "01 02 02 01 00000008 01",
        &[
            &format!("01 10 01 00000008 01 00fe 01 {blank}"),
            &first("02"),
            &first("03"),
        ],
    );
    // A log of 255 takes an order, one of 256 does not; zeros are refused in both.
    let append = |to: &str| format!("01 03 01 {to} 00000008 00fe 00000007 0009 02 {blank} {last}");
    s.says(ZEROS, &["n13"]);
    s.says(
        "o ffffffffffffffff",
        &[
            &format!("01 10 01 00000008 01 00ff 01 {last}"),
            &append("02"),
            &append("03"),
        ],
    );
    s.says("o ffffffffffffffff", &["n4"]);
    s.says("o 0000000000000001", &["n4"]);
    s.says(ZEROS, &["n13"]);
    s.no_line(b"offffffffffffffffg\n");
    s.says("p", &[&append("02"), &append("03")]);
    // The blank matches at box 2: 255 entries are committed.
    s.says(
        "01 04 02 01 00000008 01 00ff",
        &[&format!(
            "01 03 01 02 00000008 00ff 00000008 00ff 01 {last}"
        )],
    );
}

/// Winning with 256 entries: nothing is added and no line is written.
fn wins_with_a_full_log(s: &mut Steps) {
    s.says(
        "01 01 03 01 00000009 0001 00000001",
        &["01 10 01 00000009 00 0100 00", "01 02 01 03 00000009 00"],
    );
    s.says(ZEROS, &["n3"]);
    stands(s, 10, "0100 00000008");
    let append = |to: &str, commit: &str| format!("01 03 01 {to} TERM 0100 00000008 {commit} 00");
    let appends =
        |term: &str, commit: &str| ["02", "03"].map(|to| append(to, commit).replace("TERM", term));
    let [to_2, to_3] = appends("0000000a", "00ff");
    s.says("01 02 03 01 0000000a 01", &[&to_2, &to_3]);
    s.says(ZEROS, &["n13"]);
    s.says("o 0000000000000001", &["n4"]);
    // Entry 256 is an older term's and stays uncommitted.
    s.says("01 04 02 01 0000000a 01 0100", &[]);
    s.says("p", &[&to_2, &to_3]);
    // An append of term 11 says that it is committed, and is taken at its word.
    s.says(
        "01 03 02 01 0000000b 0100 00000008 0100 00",
        &[
            "01 10 01 0000000b 00 0100 00",
            "01 04 01 02 0000000b 01 0100",
        ],
    );
    stands(s, 12, "0100 00000008");
    let [to_2, to_3] = appends("0000000c", "0100");
    s.says("01 02 02 01 0000000c 01", &[&to_2, &to_3]);
}

fn last_term(s: &mut Steps) {
    s.says(
        "01 01 02 01 ffffffff 0000 00000000",
        &["01 10 01 ffffffff 00 0100 00", "01 02 01 02 ffffffff 00"],
    );
    s.says("t", &["n9"]);
    s.says("p", &["n3"]);
    s.says(ZEROS, &["n3"]);
    s.says(
        "01 01 03 01 ffffffff 0100 00000008",
        &["01 10 01 ffffffff 03 0100 00", "01 02 01 03 ffffffff 01"],
    );
    s.says("t", &["n9"]);
}

/// A park of one leads at its timeout: one line has term, vote and blank.
fn alone() -> Vec<Step> {
    let mut s = Steps(Vec::new());
    s.says("01 11 03 04", &["01 11 03 04"]);
    s.says(ZEROS, &["n3"]);
    s.says("t", &[&format!("01 10 03 00000001 03 0000 01 {ENTRY_1}")]);
    s.says(ZEROS, &["n13"]);
    s.says(
        "o 0123456789abcdef",
        &[&format!("01 10 03 00000001 03 0001 01 {ENTRY_2}")],
    );
    s.says("p", &[]);
    s.says("t", &[]);
    s.says("01 01 01 03 00000009 0000 00000000", &["n2"]);
    s.0
}

/// After the last line feed: no line.
const TAIL: &[u8] = b"t";

fn twin(input: &[u8]) -> Vec<u8> {
    let mut output = Vec::new();
    twin::session::run(input, &mut output).expect("memory");
    output
}

/// All lines and all answers, which are the twin's after each line.
fn held_to_the_twin(steps: Vec<Step>) -> Option<(Vec<u8>, Vec<u8>)> {
    let mut input = Vec::new();
    let mut output = Vec::new();
    for (number, Step { line, answer }) in (1..).zip(steps) {
        input.extend(&line);
        output.extend(answer.as_bytes());
        let twin = twin(&input);
        if twin != output {
            let said = twin.len().min(output.len() - answer.len());
            eprintln!("line {number}: {}", line.escape_ascii());
            eprintln!("by hand:  {}", answer.escape_debug());
            eprintln!("the twin: {}", twin[said..].escape_ascii());
            return None;
        }
    }
    Some((input, output))
}

fn main() -> ExitCode {
    let worked_out = held_to_the_twin(alone()).and(held_to_the_twin(steps()));
    let Some((mut input, output)) = worked_out else {
        return ExitCode::FAILURE;
    };
    input.extend(TAIL);
    if twin(&input) != output {
        eprintln!("the last line has no line feed, and the twin takes it");
        return ExitCode::FAILURE;
    }

    worked_out::print("jargulmet_session", &input, &output)
}
