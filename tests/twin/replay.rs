//! The journal's program a second time, in plain Rust: a box's number and the
//! bytes of its journal in, what is stored out. The journal may be longer than
//! memory.

use std::io::{Read, Result, Write};

use crate::journal::head_of;
use crate::lines::{Line, Lines};
use crate::opening::{replay, Refusal};
use crate::record::{Node, Orders, Terms, LONGEST_LOG};

/// What the lines so far leave.
struct Replaying {
    asked: Option<u8>,
    /// None before the head.
    node: Option<Node>,
    terms: Terms,
    orders: Orders,
    /// Of whole lines of the journal.
    bytes: u64,
    lines: u64,
}

impl Replaying {
    #[inline]
    fn take(&mut self, line: &[u8]) -> std::result::Result<(), Refusal> {
        let Some(me) = self.asked else {
            self.asked = Some(asked(line).ok_or(Refusal::NoHead)?);
            return Ok(());
        };
        self.lines += 1;
        let next = match self.node {
            None => head_of(me, line).ok_or(Refusal::NoHead),
            Some(node) => replay(node, line, &mut self.terms, &mut self.orders)
                .ok_or(Refusal::BadLine(self.lines)),
        };
        self.node = Some(next?);
        self.bytes += line.len() as u64;
        Ok(())
    }

    /// The record's numbers, then an entry a line.
    fn say(&self, output: &mut Vec<u8>) -> std::result::Result<(), Refusal> {
        let node = self.node.ok_or(Refusal::NoHead)?;
        let (bytes, last) = (self.bytes, usize::from(node.last));
        let mut text = format!("{bytes} {} {} {last}\n", node.term, node.vote);
        for (term, order) in self.terms[..last].iter().zip(&self.orders) {
            text += &format!("{term:08x}{order:016x}\n");
        }
        output.extend(text.into_bytes());
        Ok(())
    }
}

/// One digit, 1 to 7.
fn asked(line: &[u8]) -> Option<u8> {
    match line {
        [digit @ b'1'..=b'7', b'\n'] => Some(digit - b'0'),
        _ => None,
    }
}

fn replayed(input: impl Read, output: &mut Vec<u8>) -> Result<std::result::Result<(), Refusal>> {
    let mut lines = Lines::of(input);
    let mut replaying = Replaying {
        asked: None,
        node: None,
        terms: [0; LONGEST_LOG as usize],
        orders: [0; LONGEST_LOG as usize],
        bytes: 0,
        lines: 0,
    };
    while lines.more()? {
        while let Some(line) = lines.next() {
            // A line too long is neither a digit's nor a head nor a journal line,
            // and nor is a line without its line feed.
            let line = match line {
                Line::Whole(line) => line,
                Line::TooLong => b"",
            };
            if let Err(refusal) = replaying.take(line) {
                return Ok(Err(refusal));
            }
        }
    }
    Ok(replaying.say(output))
}

/// The program.
pub fn run(input: impl Read, mut output: impl Write) -> Result<()> {
    let mut text = Vec::new();
    match replayed(input, &mut text)? {
        Ok(()) => {}
        Err(Refusal::NoHead) => text.extend(b"n11\n"),
        Err(Refusal::BadLine(number)) => text.extend(format!("n10 {number}\n").into_bytes()),
    }
    output.write_all(&text)?;
    output.flush()
}

#[cfg(test)]
mod checks {
    use super::*;
    use support::text::lines as spelled;

    fn said(input: &[u8]) -> String {
        let mut output = Vec::new();
        run(input, &mut output).expect("memory");
        String::from_utf8(output).expect("digits")
    }

    /// Box 1's journal of these lines after its head, blanks between fields.
    fn of_box_1(lines: &[&str]) -> String {
        said(("1\n01110107\n".to_string() + &spelled(lines)).as_bytes())
    }

    /// 01's reading: the head, and the line of the first timeout.
    #[test]
    fn the_journal_of_01s_reading() {
        let input = b"1\n01110107\n0110010000000101000000\n";
        for cut in 0..2 + 9 {
            assert_eq!(said(&input[..cut]), "n11\n");
        }
        for cut in 2 + 9..2 + 9 + 23 {
            assert_eq!(said(&input[..cut]), "9 0 0 0\n");
        }
        assert_eq!(said(input), "32 1 1 0\n");
    }

    #[test]
    fn first_lines() {
        let journal = "01110107\n";
        for first in [
            "", "0", "8", "9", "01", "1 ", " 1", "1\r", "11", "a", "\0", "2", "7", "01110107",
        ] {
            assert_eq!(
                said(format!("{first}\n{journal}").as_bytes()),
                "n11\n",
                "{first}"
            );
        }
        let long = "1".repeat(200_000);
        assert_eq!(said(format!("{long}\n{journal}").as_bytes()), "n11\n");
        assert_eq!(said(b"1"), "n11\n");
        assert_eq!(said(b"1\n"), "n11\n");
        assert_eq!(said(b"101110107\n"), "n11\n");
        assert_eq!(said(b"8\n01110880\n"), "n11\n");
        assert_eq!(said(b"7\n01110740\n"), "9 0 0 0\n");
    }

    #[test]
    fn a_log_that_grows_and_is_cut() {
        let lines = [
            "01 10 01 00000001 01 0000 00",
            "01 10 01 00000001 01 0000 01 00000001 0000000000000000",
            "01 10 01 00000001 01 0001 01 00000001 ff00000000000000",
            "01 10 01 00000002 00 0002 00",
            "01 10 01 00000002 03 0001 02 00000002 0123456789abcdef 00000002 fedcba9876543210",
            "01 10 01 ffffffff 00 0002 00",
        ];
        let stored = "00000001 0000000000000000\n00000002 0123456789abcdef\n".replace(' ', "");
        // 9, and 23 a line with 24 for each of its entries.
        let bytes = 9 + 6 * 23 + 4 * 24;
        assert_eq!(
            of_box_1(&lines),
            format!("{bytes} 4294967295 0 2\n{stored}")
        );
        assert_eq!(of_box_1(&lines[..3]).split('\n').next(), Some("126 1 1 2"));
    }

    #[test]
    fn bad_lines_have_their_number() {
        let good = "01 10 01 00000001 01 0000 00";
        let long = "0".repeat(200_000);
        let cut_later = "01 10 01 00000001 01 0001 00";
        for bad in [
            "",
            "\r",
            "01110107",
            "t",
            "010202010000000101",
            &long,
            cut_later,
        ] {
            assert_eq!(of_box_1(&[bad]), "n10 2\n");
            assert_eq!(of_box_1(&[good, bad, "no line"]), "n10 3\n");
        }
        let other_box = "01 10 02 00000001 01 0000 00";
        assert_eq!(of_box_1(&[good, good, good, other_box]), "n10 5\n");
        // A first line that is no head comes before any look at the others.
        assert_eq!(said(b"1\n01110207\nno line\n"), "n11\n");
        let lines = [good.replace(' ', "").as_str(); 70_000].join("\n");
        let text = format!("1\n01110107\n{lines}\n");
        assert_eq!(said(text.as_bytes()), format!("{} 1 1 0\n", text.len() - 2));
        assert_eq!(said((text + "\n").as_bytes()), "n10 70002\n");
    }

    /// However long, what follows the last line feed is dropped.
    #[test]
    fn torn_ends() {
        for torn in [&b"0"[..], b"\0\xff", &[b'0'; 200_000]] {
            let input = [&b"1\n01110107\n0110010000000101000000\n"[..], torn].concat();
            assert_eq!(said(&input), "32 1 1 0\n");
            assert_eq!(said(&[b"1\n01110107\n", torn].concat()), "9 0 0 0\n");
            assert_eq!(said(&[b"1\n", torn].concat()), "n11\n");
        }
    }
}
