//! The input and output of `crates/frame_cases`: cases for the frame reader and
//! writer, made by hand.
//!
//! `frame_cases input` prints the cases, each ended by `;`.
//! `frame_cases output` prints what a program that reads them has to answer:
//! `n1` for no frame; else the fields on a line, then the frame as written.

use std::process::ExitCode;

use support::text::lines;
use support::worked_out;
use twin::frames::{self, LONGEST_TEXT};
use twin::message::Message;

struct Case {
    bytes: Vec<u8>,
    /// The expected line, written by hand.
    line: &'static str,
}

struct Cases(Vec<Case>);

fn frame(text: &str) -> Vec<u8> {
    lines(&[text]).into_bytes()
}

/// An append from 1 to 2: term, previous index and term, and commit as digits,
/// then a count and an entry for each of the terms.
fn append(fixed: &str, terms: &[u32]) -> String {
    let mut text = format!("01 03 01 02 {fixed} {:02x}", terms.len());
    for term in terms {
        text += &format!(" {term:08x} 1122334455667788");
    }
    text
}

/// A vote answer's text with one character put in place of another; the last
/// digit of its term is character 15.
fn with_character(at: usize, character: u8) -> Vec<u8> {
    let mut bytes = frame("01 02 02 01 00000001 01");
    bytes[at] = character;
    bytes
}

impl Cases {
    /// A frame, and the line that its fields make.
    fn good(&mut self, text: &str, line: &'static str) {
        self.0.push(Case {
            bytes: frame(text),
            line,
        });
    }

    /// No frame, for a reason in its digits.
    fn bad(&mut self, text: &str) {
        self.bad_bytes(&frame(text));
    }

    /// No frame; the bytes just as they are.
    fn bad_bytes(&mut self, bytes: &[u8]) {
        self.0.push(Case {
            bytes: bytes.to_vec(),
            line: "n1",
        });
    }
}

fn cases() -> Vec<Case> {
    let mut c = Cases(Vec::new());
    every_kind(&mut c);
    version_and_kind(&mut c);
    boxes(&mut c);
    terms(&mut c);
    vote_requests(&mut c);
    answers(&mut c);
    append_indexes(&mut c);
    append_terms(&mut c);
    append_counts(&mut c);
    digits(&mut c);
    lengths(&mut c);
    line_feeds(&mut c);
    c.0
}

/// Every kind, first as 01 writes it out.
fn every_kind(c: &mut Cases) {
    c.good("01 01 01 02 00000001 0000 00000000", "1 1 2 1 0 0");
    c.good("01 01 01 03 00000001 0000 00000000", "1 1 3 1 0 0");
    c.good("01 02 02 01 00000001 01", "2 2 1 1 1");
    c.good("01 04 02 01 00000001 01 0001", "4 2 1 1 1 1");
    c.good(
        "01 03 01 02 00000001 0000 00000000 0000 00",
        "3 1 2 1 0 0 0 0",
    );
    // Each field another value, so that a swap of two of them shows.
    c.good(
        "01 01 03 05 01020304 00a6 00010203",
        "1 3 5 16909060 166 66051",
    );
    c.good("01 02 06 04 f0e0d0c0 00", "2 6 4 4041265344 0");
    c.good(
        "01 03 07 02 0a0b0c0d 0012 00000304 0034 02 \
         00000506 0123456789abcdef 00000708 fedcba9876543210",
        "3 7 2 168496141 18 772 52 2 000005060123456789abcdef 00000708fedcba9876543210",
    );
    c.good("01 04 05 03 89abcdef 01 00fe", "4 5 3 2309737967 1 254");
    // What the box prints or takes on other lines is no frame.
    c.bad("01 11 01 07");
    c.bad("01 10 01 00000001 01 0000 00");
    c.bad("t");
    c.bad("o 1122334455667788");
}

/// Version 01 and kinds 1 to 4 alone.
fn version_and_kind(c: &mut Cases) {
    c.bad("00 01 01 02 00000001 0000 00000000");
    c.bad("00 02 02 01 00000001 01");
    c.bad("02 02 02 01 00000001 01");
    c.bad("11 02 02 01 00000001 01");
    c.bad("02 03 01 02 00000001 0000 00000000 0000 00");
    c.bad("02 04 02 01 00000001 01 0001");
    // Kinds beside the four, with the rest of one of the four.
    c.bad("01 00 01 02 00000001 0000 00000000");
    c.bad("01 00 02 01 00000001 01");
    c.bad("01 05 01 02 00000001 0000 00000000");
    c.bad("01 05 02 01 00000001 01");
    c.bad("01 05 01 02 00000001 0000 00000000 0000 00");
    c.bad("01 05 02 01 00000001 01 0001");
    c.bad("01 ff 02 01 00000001 01");
    // The journal's kinds.
    c.bad("01 10 02 01 00000001 01 0001");
    c.bad("01 11 02 01 00000001 01");
    // One kind's length under another's number.
    c.bad("01 01 02 01 00000001 01");
    c.bad("01 02 02 01 00000001 01 0001");
    c.bad("01 03 01 02 00000001 0000 00000000");
    c.bad("01 04 02 01 00000001 01");
}

/// Boxes 1 to 7; a frame from a box to itself is one.
fn boxes(c: &mut Cases) {
    c.good("01 02 01 07 00000001 01", "2 1 7 1 1");
    c.good("01 02 07 01 00000001 01", "2 7 1 1 1");
    c.good("01 01 07 07 00000001 0000 00000000", "1 7 7 1 0 0");
    c.good("01 04 01 01 00000001 00 0000", "4 1 1 1 0 0");
    c.bad("01 01 00 02 00000001 0000 00000000");
    c.bad("01 01 08 02 00000001 0000 00000000");
    c.bad("01 01 01 00 00000001 0000 00000000");
    c.bad("01 01 01 08 00000001 0000 00000000");
    c.bad("01 02 00 01 00000001 01");
    c.bad("01 02 08 01 00000001 01");
    c.bad("01 02 02 00 00000001 01");
    c.bad("01 02 02 08 00000001 01");
    c.bad("01 03 00 02 00000001 0000 00000000 0000 00");
    c.bad("01 03 08 02 00000001 0000 00000000 0000 00");
    c.bad("01 03 01 00 00000001 0000 00000000 0000 00");
    c.bad("01 03 01 08 00000001 0000 00000000 0000 00");
    c.bad("01 04 00 01 00000001 01 0001");
    c.bad("01 04 08 01 00000001 01 0001");
    c.bad("01 04 02 00 00000001 01 0001");
    c.bad("01 04 02 08 00000001 01 0001");
    c.bad("01 02 ff 01 00000001 01");
}

/// Term at least 1, up to the last.
fn terms(c: &mut Cases) {
    c.good("01 01 01 02 ffffffff 0000 00000000", "1 1 2 4294967295 0 0");
    c.good("01 02 02 01 ffffffff 01", "2 2 1 4294967295 1");
    c.good("01 02 02 01 80000000 00", "2 2 1 2147483648 0");
    c.good(
        "01 03 01 02 ffffffff 0000 00000000 0000 00",
        "3 1 2 4294967295 0 0 0 0",
    );
    c.good("01 04 02 01 ffffffff 01 0001", "4 2 1 4294967295 1 1");
    // For a vote request in term 0 no last term is below it either.
    c.bad("01 01 01 02 00000000 0000 00000000");
    c.bad("01 02 02 01 00000000 01");
    c.bad("01 03 01 02 00000000 0000 00000000 0000 00");
    c.bad("01 04 02 01 00000000 01 0001");
}

fn vote_requests(c: &mut Cases) {
    // Last index at most 256.
    c.good("01 01 01 02 00000002 0001 00000001", "1 1 2 2 1 1");
    c.good("01 01 01 02 00000002 0100 00000001", "1 1 2 2 256 1");
    c.bad("01 01 01 02 00000002 0101 00000001");
    c.bad("01 01 01 02 00000002 ffff 00000001");
    // Last term below term.
    c.good("01 01 01 02 00000005 0003 00000004", "1 1 2 5 3 4");
    c.good(
        "01 01 01 02 ffffffff 0001 fffffffe",
        "1 1 2 4294967295 1 4294967294",
    );
    c.bad("01 01 01 02 00000005 0003 00000005");
    c.bad("01 01 01 02 00000005 0003 00000006");
    c.bad("01 01 01 02 ffffffff 0001 ffffffff");
    c.bad("01 01 01 02 7fffffff 0001 80000000");
    // The index is 0 exactly when its term is.
    c.bad("01 01 01 02 00000002 0000 00000001");
    c.bad("01 01 01 02 00000002 0001 00000000");
}

fn answers(c: &mut Cases) {
    // Yes 0 or 1.
    c.good("01 02 02 01 00000001 00", "2 2 1 1 0");
    c.bad("01 02 02 01 00000001 02");
    c.bad("01 02 02 01 00000001 10");
    c.bad("01 02 02 01 00000001 ff");
    c.bad("01 04 02 01 00000001 02 0001");
    c.bad("01 04 02 01 00000001 ff 0000");
    // Index at most 256; a yes may name 0.
    c.good("01 04 02 01 00000001 01 0000", "4 2 1 1 1 0");
    c.good("01 04 02 01 00000001 01 0100", "4 2 1 1 1 256");
    c.bad("01 04 02 01 00000001 01 0101");
    c.bad("01 04 02 01 00000001 01 ffff");
    // A no names index 0.
    c.good("01 04 02 01 00000001 00 0000", "4 2 1 1 0 0");
    c.bad("01 04 02 01 00000001 00 0001");
}

fn append_indexes(c: &mut Cases) {
    // Previous index at most 256.
    c.good(
        &append("00000001 0100 00000001 0000", &[]),
        "3 1 2 1 256 1 0 0",
    );
    c.bad(&append("00000001 0101 00000001 0000", &[]));
    // Previous index + count at most 256.
    c.good(
        &append("00000001 00ff 00000001 0000", &[1]),
        "3 1 2 1 255 1 0 1 000000011122334455667788",
    );
    c.bad(&append("00000001 0100 00000001 0000", &[1]));
    c.good(
        &append("00000001 00fe 00000001 0000", &[1, 1]),
        "3 1 2 1 254 1 0 2 000000011122334455667788 000000011122334455667788",
    );
    c.bad(&append("00000001 00ff 00000001 0000", &[1, 1]));
    c.good(
        &append("00000001 00fc 00000001 0000", &[1, 1, 1, 1]),
        "3 1 2 1 252 1 0 4 000000011122334455667788 000000011122334455667788 \
         000000011122334455667788 000000011122334455667788",
    );
    c.bad(&append("00000001 00fd 00000001 0000", &[1, 1, 1, 1]));
    // In two bytes this sum is 0.
    c.bad(&append("00000001 ffff 00000001 0000", &[1]));
    // Commit at most 256, and no other bound.
    c.good(
        &append("00000001 0000 00000000 0100", &[]),
        "3 1 2 1 0 0 256 0",
    );
    c.good(
        &append("00000001 0009 00000001 0003", &[]),
        "3 1 2 1 9 1 3 0",
    );
    c.bad(&append("00000001 0000 00000000 0101", &[]));
    c.bad(&append("00000001 0000 00000000 ffff", &[]));
    // The index is 0 exactly when its term is.
    c.bad(&append("00000001 0000 00000001 0000", &[]));
    c.bad(&append("00000001 0001 00000000 0000", &[]));
    c.bad(&append("00000001 0000 00000001 0000", &[1]));
    c.bad(&append("00000001 0001 00000000 0000", &[1]));
}

fn append_terms(c: &mut Cases) {
    // Previous term not above term.
    c.good(
        &append("00000005 0003 00000005 0000", &[]),
        "3 1 2 5 3 5 0 0",
    );
    c.good(
        &append("ffffffff 0003 ffffffff 0000", &[]),
        "3 1 2 4294967295 3 4294967295 0 0",
    );
    c.bad(&append("00000005 0003 00000006 0000", &[]));
    c.bad(&append("7fffffff 0003 80000000 0000", &[]));
    // Entry terms at least 1.
    c.bad(&append("00000005 0000 00000000 0000", &[0]));
    // The first entry's term not below previous term.
    c.good(
        &append("00000005 0003 00000002 0000", &[2]),
        "3 1 2 5 3 2 0 1 000000021122334455667788",
    );
    c.bad(&append("00000005 0003 00000002 0000", &[1]));
    // Nor any later one's below the one before.
    c.good(
        &append("00000005 0003 00000001 0000", &[1, 2, 3, 4]),
        "3 1 2 5 3 1 0 4 000000011122334455667788 000000021122334455667788 \
         000000031122334455667788 000000041122334455667788",
    );
    c.bad(&append("00000005 0003 00000001 0000", &[3, 2, 3, 4]));
    c.bad(&append("00000005 0003 00000001 0000", &[1, 4, 3, 4]));
    c.bad(&append("00000005 0003 00000001 0000", &[1, 2, 5, 4]));
    // A fall that only the upper, or only the lower half of a term shows.
    c.bad(&append("00040000 0003 00000001 0000", &[0x20001, 0x10002]));
    c.bad(&append("00040000 0003 00000001 0000", &[0x10002, 0x10001]));
    // No entry's term above term.
    c.good(
        &append("00000005 0003 00000001 0000", &[5, 5, 5, 5]),
        "3 1 2 5 3 1 0 4 000000051122334455667788 000000051122334455667788 \
         000000051122334455667788 000000051122334455667788",
    );
    c.good(
        &append("ffffffff 0000 00000000 0000", &[0xffffffff]),
        "3 1 2 4294967295 0 0 0 1 ffffffff1122334455667788",
    );
    c.bad(&append("00000005 0003 00000001 0000", &[6]));
    c.bad(&append("00000005 0003 00000006 0000", &[6]));
    c.bad(&append("00000005 0003 00000001 0000", &[5, 6]));
    c.bad(&append("00000005 0003 00000001 0000", &[5, 5, 6]));
    c.bad(&append("00000005 0003 00000001 0000", &[5, 5, 5, 6]));
    // Any order is ordinary.
    c.good(
        "01 03 01 02 00000001 0000 00000000 0000 01 00000001 0000000000000000",
        "3 1 2 1 0 0 0 1 000000010000000000000000",
    );
    c.good(
        "01 03 01 02 00000001 0000 00000000 0000 01 00000001 ff00000000000000",
        "3 1 2 1 0 0 0 1 00000001ff00000000000000",
    );
    c.good(
        "01 03 01 02 00000001 0000 00000000 0000 01 00000001 ffffffffffffffff",
        "3 1 2 1 0 0 0 1 00000001ffffffffffffffff",
    );
}

fn append_counts(c: &mut Cases) {
    // Count at most 4; 0, 1, 2 and 4 entries stand above.
    c.good(
        &append("00000001 0000 00000000 0000", &[1, 1, 1]),
        "3 1 2 1 0 0 0 3 000000011122334455667788 000000011122334455667788 \
         000000011122334455667788",
    );
    c.bad(&append("00000001 0000 00000000 0000", &[1, 1, 1, 1, 1]));
    // Another number of entries than the count.
    let fixed = "01 03 01 02 00000001 0000 00000000 0000";
    let entry = " 00000001 1122334455667788";
    for (count, entries) in [
        ("05", 4),
        ("ff", 4),
        ("00", 1),
        ("01", 2),
        ("03", 4),
        ("04", 5),
        ("01", 0),
        ("02", 1),
        ("04", 3),
    ] {
        c.bad(&format!("{fixed} {count}{}", entry.repeat(entries)));
    }
}

/// Digits are 0-9 and a-f.
fn digits(c: &mut Cases) {
    c.good("01 02 02 01 abcdef09 01", "2 2 1 2882400009 1");
    c.good("01 02 02 01 0000000a 01", "2 2 1 10 1");
    c.bad("01 02 02 01 0000000A 01");
    c.bad("01 02 02 01 A0000000 01");
    c.bad("01 01 01 02 000000ff 00F0 00000001");
    c.bad("01 03 01 02 000000ff 0001 0000000B 0000 00");
    c.bad("01 03 01 02 00000001 0000 00000000 0000 01 00000001 112233445566778C");
    c.bad("01 04 02 01 00000001 01 00Ef");
    // The neighbours of the digits, and characters that some readers take.
    for character in *b"/:@G`gx " {
        c.bad_bytes(&with_character(15, character));
    }
    // Bytes that are no text; the last two are '1' but for one bit.
    for byte in [0x00, 0x80, 0xff, 0xb1, 0x11] {
        c.bad_bytes(&with_character(15, byte));
    }
    // At the first and the last digit.
    c.bad_bytes(&with_character(0, b'x'));
    c.bad_bytes(&with_character(17, b'x'));
}

fn lengths(c: &mut Cases) {
    // A digit missing, a digit more.
    c.bad("01 01 01 02 00000001 0000 0000000");
    c.bad("01 01 01 02 00000001 0000 000000000");
    c.bad("01 02 02 01 00000001 0");
    c.bad("01 02 02 01 00000001 010");
    c.bad("01 03 01 02 00000001 0000 00000000 0000 0");
    c.bad("01 03 01 02 00000001 0000 00000000 0000 000");
    c.bad("01 03 01 02 00000001 0000 00000000 0000 01 00000001 112233445566778");
    c.bad("01 03 01 02 00000001 0000 00000000 0000 01 00000001 11223344556677880");
    c.bad("01 04 02 01 00000001 01 000");
    c.bad("01 04 02 01 00000001 01 00010");
    c.bad("1 02 02 01 00000001 01");
    c.bad("0 01 02 02 01 00000001 01");
    // A byte missing, a byte more.
    c.bad("01 02 02 01 00000001");
    c.bad("01 02 02 01 00000001 01 00");
    c.bad("01 03 01 02 00000001 0000 00000000 0000");
    c.bad("01 03 01 02 00000001 0000 00000000 0000 00 00");
    // Not far enough for a kind.
    c.bad("0");
    c.bad("01 02");
    c.bad("01 03 01 02");
}

fn line_feeds(c: &mut Cases) {
    c.bad_bytes(b"");
    c.bad_bytes(b"\n");
    // None at the end.
    c.bad_bytes(b"0101010200000001000000000000");
    c.bad_bytes(b"010202010000000101");
    c.bad_bytes(b"0103010200000001000000000000000000");
    c.bad_bytes(b"0104020100000001010001");
    // Two at the end.
    c.bad_bytes(b"0101010200000001000000000000\n\n");
    c.bad_bytes(b"010202010000000101\n\n");
    c.bad_bytes(b"0103010200000001000000000000000000\n\n");
    c.bad_bytes(b"0104020100000001010001\n\n");
    // In front, in the middle, in place of a digit.
    c.bad_bytes(b"\n010202010000000101\n");
    c.bad_bytes(b"01020201\n0000000101\n");
    c.bad_bytes(b"01020201\n000000101\n");
    c.bad_bytes(b"01020201\n0000000101");
    // Something else at the end, or beside it.
    c.bad_bytes(b"010202010000000101\r\n");
    c.bad_bytes(b"010202010000000101 \n");
    c.bad_bytes(b"010202010000000101\0");
    c.bad_bytes(b"0102020100000001010a");
    // Two frames are not one.
    c.bad_bytes(b"010202010000000101\n0104020100000001010001\n");
    c.bad_bytes(b"010202010000000101\n010202010000000101");
    c.bad_bytes(b"010202010000000101010202010000000101\n");
}

/// After the last `;`: a frame, but no case.
const TAIL: &[u8] = b"010202010000000101\n";

fn line_of(bytes: &[u8]) -> String {
    let Some(message) = frames::read(bytes) else {
        return "n1".into();
    };
    match message {
        Message::VoteRequest {
            from,
            to,
            term,
            last_index,
            last_term,
        } => format!("1 {from} {to} {term} {last_index} {last_term}"),
        Message::VoteAnswer {
            from,
            to,
            term,
            yes,
        } => format!("2 {from} {to} {term} {yes}"),
        Message::Append {
            from,
            to,
            term,
            previous_index,
            previous_term,
            commit,
            count,
            entries,
        } => {
            let mut line =
                format!("3 {from} {to} {term} {previous_index} {previous_term} {commit} {count}");
            for entry in &entries[..count.into()] {
                let order = u64::from_be_bytes(entry.order);
                line += &format!(" {:08x}{order:016x}", entry.term);
            }
            line
        }
        Message::AppendAnswer {
            from,
            to,
            term,
            yes,
            index,
        } => format!("4 {from} {to} {term} {yes} {index}"),
    }
}

/// What the writer gives for the fields of these bytes; nothing for no frame.
fn written(bytes: &[u8]) -> Vec<u8> {
    let mut room = [0; LONGEST_TEXT];
    let length = frames::read(bytes).map_or(0, |message| {
        frames::write(&message, &mut room).expect("what is read can be written")
    });
    room[..length].to_vec()
}

fn main() -> ExitCode {
    let cases = cases();
    let mut input = Vec::new();
    let mut output = Vec::new();
    for (number, Case { bytes, line }) in (1..).zip(&cases) {
        let twin = line_of(bytes);
        let frame = written(bytes);
        // A frame has one spelling only.
        let spelling: &[u8] = if *line == "n1" { b"" } else { bytes };
        if twin != *line || frame != spelling {
            eprintln!("case {number}: {}", bytes.escape_ascii());
            eprintln!("by hand:  {line}");
            eprintln!("the twin: {twin} / {}", frame.escape_ascii());
            return ExitCode::FAILURE;
        }
        assert!(!bytes.contains(&b';'), "case {number} would be cut");
        input.extend_from_slice(bytes);
        input.push(b';');
        output.extend_from_slice(twin.as_bytes());
        output.push(b'\n');
        output.extend_from_slice(&frame);
    }
    input.extend_from_slice(TAIL);

    worked_out::print("frame_cases", &input, &output)
}
