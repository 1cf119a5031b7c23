//! Inputs whose first line is no head, with what is said to them: nothing without
//! a line feed, else n12 and nothing more.

use support::bad_heads::HEADS;
use support::counts::{Counts, Name};
use support::damage;
use support::journal_lines;
use support::random::Random;
use support::received_frames;
use support::records::{self, Record};

use crate::expected_answers::Session;
use crate::no_lines::{self, order_line};

type Make = fn(&mut Random, &Record) -> Vec<u8>;

fn head(record: &Record) -> Vec<u8> {
    let [me, mask, ..] = record.numbers;
    journal_lines::head(me, mask)
}

/// Whole lines that are no head of any box.
const LINES: [(&str, Make); 9] = [
    ("first_empty", |_, _| b"\n".to_vec()),
    ("first_timeout", |_, _| b"t\n".to_vec()),
    ("first_prompt", |_, _| b"p\n".to_vec()),
    ("first_order", |r, _| order_line(r)),
    ("first_frame", received_frames::frame),
    ("first_journal_line", |_, record| {
        format!("0110{:02x}0000000100000000\n", record.numbers[0]).into()
    }),
    ("first_random", |r, _| {
        let mut bytes = damage::random_bytes(r);
        bytes.retain(|&byte| byte != b'\n');
        [b"#", &bytes[..], b"\n"].concat()
    }),
    ("first_long", |r, record| {
        let mut line = head(record);
        let more = r.of(&no_lines::LONG) - line.len();
        line.splice(0..0, vec![b'0'; more]);
        line
    }),
    ("first_head_and_more", |r, record| {
        let mut line = head(record);
        line.pop();
        line.extend(r.of(&[&b"t\n"[..], b"\0\n", b"00\n", b"01110107\n", b"\t\n"]));
        line
    }),
];

/// No line feed at all.
const TORN: [(&str, Make); 4] = [
    ("no_byte", |_, _| Vec::new()),
    ("torn_head", |r, record| {
        let mut line = head(record);
        line.truncate(r.edged(1, 8) as usize);
        line
    }),
    ("torn_line", |r, _| {
        r.of(&[&b"t"[..], b"no head", b"\0"]).to_vec()
    }),
    ("torn_long_line", |r, _| vec![b'0'; r.of(&no_lines::LONG)]),
];

/// A journal's bad head that is bad whichever box is asked for, and has a line feed.
fn is_bad(name: &str) -> bool {
    let others = ["head_of_another", "head_lacks", "head_without_line_feed"];
    !name.starts_with("head_asked") && !others.contains(&name)
}

fn bad_heads() -> Vec<&'static str> {
    let names = HEADS.iter().map(|(name, _)| *name);
    names.filter(|name| is_bad(name)).collect()
}

/// The name tells it from the same head before a journal.
pub fn wanted() -> Vec<Name> {
    let lines = LINES.iter().chain(&TORN);
    let mut names: Vec<Name> = lines.map(|(name, _)| (*name, None)).collect();
    names.extend((0..bad_heads().len()).map(|place| ("first_head", Some(place as u64))));
    names.push(("n", Some(12)));
    names
}

/// The first line, with what follows it; nothing of that is looked at.
pub fn input(r: &mut Random, counts: &mut Counts) -> (Vec<u8>, &'static [u8]) {
    let (me, mask) = records::membership(r);
    let record = Session::new(me, mask).record();
    let mut input = match r.below(8) {
        0 => {
            let (name, make) = r.of(&TORN);
            counts.add(name);
            return (make(r, &record), b"");
        }
        1..=3 => {
            let (name, make) = r.of(&LINES);
            counts.add(name);
            make(r, &record)
        }
        _ => bad_head(r, me, mask, counts),
    };
    counts.add_of("n", 12);
    match r.below(5) {
        0 => {}
        1 => input.push(b'\n'),
        2 => input.extend(b"t\n"),
        3 => input.extend([&head(&record), &b"t\n"[..]].concat()),
        _ => input.extend(b"t\np\n\n".repeat(20_000)),
    }
    (input, b"n12\n")
}

fn bad_head(r: &mut Random, me: u64, mask: u64, counts: &mut Counts) -> Vec<u8> {
    let names = bad_heads();
    loop {
        let place = r.below(names.len());
        let (_, make) = HEADS
            .iter()
            .find(|(name, _)| *name == names[place])
            .expect("one");
        if let Some((_, line)) = make(r, me, mask) {
            counts.add_of("first_head", place as u64);
            return line;
        }
    }
}
