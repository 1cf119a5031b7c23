//! 01's small program a second time, in plain Rust and from 01's text alone: a
//! box that reads lines and answers each.

use std::io::{Read, Result, Write};

use crate::digits::Digits;
use crate::frames;
use crate::journal::{self, line_text};
use crate::lines::{Line, Lines, Said};
use crate::members::BOXES;
use crate::message::MOST_ENTRIES;
use crate::record::{Node, Orders, Terms, LONGEST_LOG};
use crate::refusals::{BAD_RECORD, NOT_A_FRAME};
use crate::start;

const LONGEST_LINE: usize = line_text(MOST_ENTRIES);

/// A journal line, and an append to each other box.
pub const LONGEST_ANSWER: usize = LONGEST_LINE + (BOXES - 1) * frames::LONGEST_TEXT;

/// A box that was started, with its log.
#[derive(Clone)]
pub struct Running {
    pub node: Node,
    pub terms: Terms,
    pub orders: Orders,
}

impl Running {
    /// The box of a head, which is said: its bytes come back with it.
    pub fn start(line: &[u8], room: &mut [u8]) -> Option<(Running, usize)> {
        let head = journal::head(line)?;
        let (node, said) = start(head.me, head.members, room).ok()?;
        let running = Running {
            node,
            terms: [0; LONGEST_LOG as usize],
            orders: [0; LONGEST_LOG as usize],
        };
        Some((running, said))
    }

    /// Takes a line after the head. The room is for the longest answer; the bytes
    /// of this one come back.
    #[inline]
    pub fn take(&mut self, line: &[u8], room: &mut [u8]) -> usize {
        // Where the messages begin is known only after the step.
        let (journal, messages) = room.split_at_mut(LONGEST_LINE);
        let (node, terms, orders) = (self.node, &mut self.terms, &mut self.orders);
        let answer = match line {
            b"t\n" => node.timed_out(terms, orders, journal, messages),
            b"p\n" => node.prompted(terms, orders, journal, messages),
            [b'o', digits @ ..] => match order(digits) {
                Some(order) => node.ordered(order, terms, orders, journal, messages),
                None => Err(NOT_A_FRAME),
            },
            frame => node.received(frame, terms, orders, journal, messages),
        };
        match answer {
            Ok(step) => {
                self.node = step.node;
                let messages = LONGEST_LINE..LONGEST_LINE + step.messages;
                room.copy_within(messages, step.line);
                step.line + step.messages
            }
            Err(refusal) => refuse(refusal, room),
        }
    }
}

/// The number of the order's 16 digits.
fn order(text: &[u8]) -> Option<u64> {
    let mut digits = Digits::of(text.strip_suffix(b"\n")?);
    let order = digits.order()?;
    digits.are_all().then(|| u64::from_be_bytes(order))
}

fn refuse(refusal: u8, room: &mut [u8]) -> usize {
    let [tens, ones] = [refusal / 10, refusal % 10].map(|digit| b'0' + digit);
    let text = match refusal {
        ..10 => &[b'n', ones, b'\n'][..],
        _ => &[b'n', tens, ones, b'\n'],
    };
    room[..text.len()].copy_from_slice(text);
    text.len()
}

/// The program.
pub fn run(input: impl Read, output: impl Write) -> Result<()> {
    let mut lines = Lines::of(input);
    let mut said = Said::to(output);
    let mut started = None;
    while lines.more()? {
        while let Some(line) = lines.next() {
            let room = said.room(LONGEST_ANSWER)?;
            let bytes = match (&mut started, line) {
                (Some(running), Line::Whole(line)) => Running::take(running, line, room),
                (Some(_), Line::TooLong) => refuse(NOT_A_FRAME, room),
                (None, line) => match first(line, room) {
                    Some((running, bytes)) => {
                        started = Some(running);
                        bytes
                    }
                    None => {
                        let bytes = refuse(BAD_RECORD, room);
                        said.said(bytes);
                        return said.send();
                    }
                },
            };
            said.said(bytes);
        }
        said.send()?;
    }
    Ok(())
}

fn first(line: Line, room: &mut [u8]) -> Option<(Running, usize)> {
    match line {
        Line::Whole(line) => Running::start(line, room),
        Line::TooLong => None,
    }
}

#[cfg(test)]
mod checks {
    use super::*;
    use support::text::lines;

    /// What is said to these bytes.
    fn said(input: &[u8]) -> String {
        let mut output = Vec::new();
        run(input, &mut output).expect("memory");
        String::from_utf8(output).expect("digits")
    }

    /// Each line with what is said to it.
    fn check(steps: &[(&str, &[&str])]) {
        let mut input = String::new();
        let mut output = String::new();
        for (line, answer) in steps {
            input += &lines(&[line]);
            output += &lines(answer);
            assert_eq!(said(input.as_bytes()), output, "{line}");
        }
    }

    #[test]
    fn the_reading_of_01() {
        let whole = "01110107\n0110010000000101000000\n\
                     0101010200000001000000000000\n0101010300000001000000000000\n";
        assert_eq!(said(b"01110107\nt\n"), whole);
    }

    #[test]
    fn from_the_head_to_a_committed_order() {
        let blank = "01 03 01 02 00000001 0000 00000000 0000 01 00000001 0000000000000000";
        let both = "01 03 01 02 00000001 0000 00000000 0000 02 00000001 0000000000000000 \
                    00000001 0123456789abcdef";
        check(&[
            ("01110107", &["01110107"]),
            ("p", &["n3"]),
            ("o0123456789abcdef", &["n3"]),
            ("o0000000000000000", &["n3"]),
            (
                "t",
                &[
                    "01 10 01 00000001 01 0000 00",
                    "01 01 01 02 00000001 0000 00000000",
                    "01 01 01 03 00000001 0000 00000000",
                ],
            ),
            (
                "01 02 02 01 00000001 01",
                &[
                    "01 10 01 00000001 01 0000 01 00000001 0000000000000000",
                    blank,
                    &blank.replacen("02", "03", 1),
                ],
            ),
            ("t", &[]),
            ("o0000000000000000", &["n13"]),
            (
                "o0123456789abcdef",
                &[
                    "01 10 01 00000001 01 0001 01 00000001 0123456789abcdef",
                    both,
                    &both.replacen("02", "03", 1),
                ],
            ),
            ("01 04 02 01 00000001 01 0002", &[]),
            (
                "p",
                &[
                    "01 03 01 02 00000001 0002 00000001 0002 00",
                    &both
                        .replacen("02", "03", 1)
                        .replacen("0000 02", "0002 02", 1),
                ],
            ),
        ]);
    }

    #[test]
    fn input_without_a_whole_line_says_nothing() {
        for input in ["", "0", "01110107", "01110107\r", "t", "no head"] {
            assert_eq!(said(input.as_bytes()), "");
        }
        assert_eq!(said(&[b'0'; 200_000]), "");
    }

    #[test]
    fn bad_first_lines() {
        let long = "0".repeat(200_000);
        for first in [
            "",
            " ",
            "\r",
            "t",
            "p",
            "01110100",
            "01110187",
            "01110106",
            "01110007",
            "01110880",
            "0111017F",
            "01110107\r",
            "01110107 ",
            " 01110107",
            "0111010",
            "011101070",
            "0111010700",
            "02110107",
            "01100107",
            "0110010000000101000000",
            &long,
        ] {
            for rest in ["", "\n", "t\n01110107\n", "01110107\nt\n"] {
                let input = format!("{first}\n{rest}");
                assert_eq!(
                    said(input.as_bytes()),
                    "n12\n",
                    "{}",
                    &input[..input.len().min(40)]
                );
            }
        }
    }

    #[test]
    fn lines_that_are_none() {
        let frame = "010202010000000101";
        for line in [
            "",
            " ",
            "\r",
            "t ",
            " t",
            "t\r",
            "T",
            "tt",
            "p ",
            "P",
            "pt",
            "\0",
            "t\0",
            "o",
            "O0123456789abcdef",
            "o123456789abcdef",
            "o00123456789abcdef",
            "o0123456789abcdeF",
            "o 0123456789abcdef",
            "o0123456789abcdef ",
            "o0123456789abcde\0",
            "0123456789abcdef",
            "01110107",
            "0110010000000101000000",
            "01020201000000010A",
            "0102020100000001",
        ] {
            assert_eq!(
                said(format!("01110107\n{line}\n").as_bytes()),
                "01110107\nn1\n",
                "{line}"
            );
        }
        assert_eq!(said(b"01110107\n\xff\xfe\n"), "01110107\nn1\n");
        for line in [
            format!("{frame}\r"),
            format!(" {frame}"),
            format!("{frame}{frame}"),
        ] {
            assert_eq!(
                said(format!("01110107\n{line}\n").as_bytes()),
                "01110107\nn1\n",
                "{line}"
            );
        }
    }

    #[test]
    fn a_line_too_long_is_n1_once_at_its_line_feed() {
        for length in [131, 132, 133, 65_535, 65_536, 65_537, 200_000] {
            for last in ["t", "0", " ", "\r"] {
                let line = "0".repeat(length) + last;
                let head = "01110101\n";
                assert_eq!(said(format!("{head}{line}").as_bytes()), head);
                // The box is as it was: its first timeout is that of term 1.
                let input = format!("{head}{line}\nt\n");
                let line = "0110010000000101000001000000010000000000000000";
                let output = format!("{head}n1\n{line}\n");
                assert_eq!(said(input.as_bytes()), output);
            }
        }
    }

    #[test]
    fn the_last_line_without_its_line_feed() {
        assert_eq!(said(b"01110101\nt"), "01110101\n");
        assert_eq!(said(b"01110101\n\n\nt"), "01110101\nn1\nn1\n");
        assert_eq!(said(b"01110101\nt\nt"), said(b"01110101\nt\n"));
    }

    /// A bad order line is n1 before any look at the role; 13 and 4 come after it.
    #[test]
    fn the_refusals_of_orders() {
        let lead = "01110101\nt\n";
        let full = lead.to_string() + &"o0123456789abcdef\n".repeat(255);
        let line = |kept| format!("0110010000000101{kept:04x}01000000010123456789abcdef\n");
        let output = said(full.as_bytes());
        assert!(output.ends_with(&(line(254) + &line(255))));
        for (order, refusal) in [
            ("o0123456789abcdef", "n4"),
            ("o0000000000000000", "n13"),
            ("o000000000000000g", "n1"),
        ] {
            let input = format!("{full}{order}\n");
            assert_eq!(said(input.as_bytes()), format!("{output}{refusal}\n"));
        }
    }

    /// An answer is out before more is asked for.
    #[test]
    fn answers_come_before_the_next_question() {
        use std::cell::RefCell;
        use std::io::Error;

        struct Asked<'a>(&'a RefCell<Vec<String>>, std::slice::Iter<'a, &'a str>);
        struct Heard<'a>(&'a RefCell<Vec<String>>);

        impl Read for Asked<'_> {
            fn read(&mut self, room: &mut [u8]) -> Result<usize> {
                let Some(piece) = self.1.next() else {
                    return Ok(0);
                };
                self.0.borrow_mut().push(format!("< {piece}"));
                room[..piece.len()].copy_from_slice(piece.as_bytes());
                Ok(piece.len())
            }
        }

        impl Write for Heard<'_> {
            fn write(&mut self, bytes: &[u8]) -> Result<usize> {
                let text = std::str::from_utf8(bytes).map_err(Error::other)?;
                self.0.borrow_mut().push(format!("> {text}"));
                Ok(bytes.len())
            }

            fn flush(&mut self) -> Result<()> {
                Ok(())
            }
        }

        let heard = RefCell::new(Vec::new());
        let pieces = ["0111", "0101\n", "\np", "\n", "p\n\n", "t"];
        run(Asked(&heard, pieces.iter()), Heard(&heard)).expect("memory");
        let turns = [
            "< 0111",
            "< 0101\n",
            "> 01110101\n",
            "< \np",
            "> n1\n",
            "< \n",
            "> n3\n",
            "< p\n\n",
            "> n3\nn1\n",
            "< t",
        ];
        assert_eq!(heard.into_inner(), turns);
    }
}
