//! Inputs of the journal's program, with what has to be said where the journal was
//! made so that this is known without either side.

use support::bad_heads::HEADS;
use support::broken_lines::{rules, Broken};
use support::counts::{Counts, Name};
use support::damage::{self, DAMAGES};
use support::journal_lines::{self, Stored, KINDS};
use support::journals::Journal;
use support::random::Random;

/// The box asked for and the journal's bytes.
pub struct Opening {
    pub input: Vec<u8>,
    pub expected: Option<Vec<u8>>,
}

/// Tries for a line that fits the stored part at some place and can break the rule.
const TRIES: usize = 24;

const WANTED: [&str; 15] = [
    "whole",
    "whole_full_log",
    "whole_last_term",
    "whole_of_many_blocks",
    "cut_in_digit",
    "cut_in_head",
    "cut_in_line",
    "cut_before_line_feed",
    "cut_after_line",
    "torn",
    "torn_long",
    "line_feed_doubled_at_end",
    "long_line",
    "long_first_line",
    "bad_line_above_65535",
];

pub fn wanted() -> Vec<Name> {
    let mut names = WANTED.map(|name| (name, None)).to_vec();
    names.extend(ASKED.map(|(name, _)| (name, None)));
    names.extend(HEADS.iter().map(|(name, _)| (*name, None)));
    names.extend(rules().map(|rule| (rule.name, None)));
    names
}

/// First lines that are not one digit 1 to 7, of a box.
const ASKED: [(&str, fn(&mut Random, u64) -> Vec<u8>); 14] = [
    ("asked_0", |_, _| b"0\n".to_vec()),
    ("asked_8", |_, _| b"8\n".to_vec()),
    ("asked_9", |_, _| b"9\n".to_vec()),
    ("asked_of_two_digits", |r, me| {
        format!("{}{me}\n", r.of(&[0, 0, me])).into()
    }),
    ("asked_letter", |r, _| vec![r.of(b"afxtp"), b'\n']),
    ("asked_sign", |r, me| {
        format!("{}{me}\n", r.of(&['+', '-', '#'])).into()
    }),
    ("asked_after_blank", |_, me| format!(" {me}\n").into()),
    ("asked_before_blank", |_, me| format!("{me} \n").into()),
    ("asked_carriage_return", |_, me| format!("{me}\r\n").into()),
    ("asked_nul", |_, me| format!("{me}\0\n").into()),
    ("asked_byte", |r, _| {
        let byte = r.of(b"/:\0\x01\x07\x81\xff");
        vec![byte, b'\n']
    }),
    ("asked_empty", |_, _| b"\n".to_vec()),
    ("asked_not_at_all", |_, _| Vec::new()),
    ("asked_too_long", |r, me| {
        let length = r.of(&[131, 132, 65_535, 65_536, 65_537, 200_000]);
        let digit = b'0' + me as u8;
        [vec![digit; length], b"\n".to_vec()].concat()
    }),
];

/// What is said of a stored part found in so many bytes.
fn stored(stored: &Stored, bytes: usize) -> Vec<u8> {
    let Stored { term, vote, .. } = stored;
    let mut text = format!("{bytes} {term} {vote} {}\n", stored.log.len());
    for (term, order) in &stored.log {
        text += &format!("{term:08x}{order:016x}\n");
    }
    text.into()
}

fn no_head() -> Option<Vec<u8>> {
    Some(b"n11\n".to_vec())
}

fn bad_line(number: usize) -> Option<Vec<u8>> {
    Some(format!("n10 {number}\n").into())
}

/// Asked for the journal's own box.
fn opening(journal: &Journal, text: &[u8], expected: Option<Vec<u8>>) -> Opening {
    let me = journal.after[0].me;
    Opening {
        input: [format!("{me}\n").as_bytes(), text].concat(),
        expected,
    }
}

/// The input's first bytes.
fn cut(journal: &Journal, length: usize, counts: &mut Counts) -> Opening {
    let whole = opening(journal, &journal.text, None).input;
    let of_journal = length.saturating_sub(2);
    let lines = journal.whole(of_journal);
    let at_end = journal.ends.contains(&of_journal);
    counts.add_each(&[
        (length < 2, "cut_in_digit"),
        (length >= 2 && lines == 0, "cut_in_head"),
        (lines > 0 && !at_end, "cut_in_line"),
        (
            lines > 0 && journal.ends.contains(&(of_journal + 1)),
            "cut_before_line_feed",
        ),
        (lines > 0 && at_end, "cut_after_line"),
    ]);
    Opening {
        input: whole[..length].to_vec(),
        expected: match lines {
            0 => no_head(),
            _ => Some(stored(&journal.after[lines - 1], journal.ends[lines - 1])),
        },
    }
}

/// Every cut of a short journal.
pub fn cut_at_every_byte(journal: &Journal, counts: &mut Counts) -> Vec<Opening> {
    let lengths = 0..=journal.text.len() + 2;
    lengths.map(|length| cut(journal, length, counts)).collect()
}

fn torn(r: &mut Random, journal: &Journal, counts: &mut Counts) -> Opening {
    let mut torn = match r.below(4) {
        0 => damage::random_bytes(r),
        1 => journal.rest(1).to_vec(),
        2 => {
            counts.add("torn_long");
            vec![r.of(b"0t\0 "); r.of(&[131, 65_535, 65_536, 65_537, 200_000])]
        }
        _ => journal_lines::any(r, journal.last()).text(),
    };
    counts.add("torn");
    torn.retain(|&byte| byte != b'\n');
    let expected = stored(journal.last(), journal.text.len());
    opening(
        journal,
        &[&journal.text, &torn[..]].concat(),
        Some(expected),
    )
}

/// The rule broken in a line after some other, if it can be.
fn broken(r: &mut Random, journal: &Journal, rule: &Broken) -> Option<Opening> {
    let make = |_| {
        let lines = journal.ends.len() as u64;
        let any = r.between(1, lines);
        let place = r.of(&[1, lines, any, any]) as usize;
        let kind = r.of(rule.kinds);
        let line = KINDS[kind].1(r, &journal.after[place - 1])?;
        let bad = (rule.make)(r, &journal.after[place - 1], line)?;
        Some((place, bad))
    };
    let (place, bad) = (0..TRIES).find_map(make)?;
    let mut text = journal.text[..journal.ends[place - 1]].to_vec();
    text.extend(bad);
    match r.below(4) {
        0 => {}
        1 => text.extend(b"torn"),
        2 => text.extend(b"\nno line\n"),
        _ => text.extend(journal.rest(place)),
    }
    Some(opening(journal, &text, bad_line(place + 1)))
}

/// A head that is none, or another's, before the journal's lines.
fn bad_head(
    r: &mut Random,
    journal: &Journal,
    turn: usize,
    counts: &mut Counts,
) -> Option<Opening> {
    let fresh = &journal.after[0];
    let (name, make) = HEADS[turn % HEADS.len()];
    let (asked, head) = make(r, fresh.me, fresh.mask)?;
    counts.add(name);
    let mut input = format!("{asked}\n").into_bytes();
    input.extend(head);
    input.extend(journal.rest(1));
    Some(Opening {
        input,
        expected: no_head(),
    })
}

fn bad_asked(r: &mut Random, journal: &Journal, turn: usize, counts: &mut Counts) -> Opening {
    let (name, make) = ASKED[turn % ASKED.len()];
    counts.add(name);
    let asked = make(r, journal.after[0].me);
    Opening {
        input: [&asked, &journal.text[..]].concat(),
        expected: no_head(),
    }
}

/// In place of a line, or of the head.
fn long_line(r: &mut Random, journal: &Journal, counts: &mut Counts) -> Opening {
    let place = r.below(journal.ends.len());
    let start = match place {
        0 => 0,
        _ => journal.ends[place - 1],
    };
    let line = &journal.text[start..journal.ends[place]];
    // It ends as the line does.
    let longer = r.of(&[120, 131, 65_534, 65_535, 65_536, 65_537, 200_000]);
    let more = vec![r.of(b"01 \0"); longer];
    let text = [&journal.text[..start], &more, line, journal.rest(place + 1)].concat();
    counts.add(if place == 0 {
        "long_first_line"
    } else {
        "long_line"
    });
    let expected = match place {
        0 => no_head(),
        _ => bad_line(place + 1),
    };
    opening(journal, &text, expected)
}

/// A line or the whole journal damaged, which may well leave a journal.
fn damaged(r: &mut Random, journal: &Journal) -> Opening {
    let (_, damage) = r.of(&DAMAGES);
    let place = r.below(journal.ends.len());
    let text = match place {
        0 => damage(r, journal.text.clone()),
        _ => {
            let (start, end) = (journal.ends[place - 1], journal.ends[place]);
            let line = damage(r, journal.text[start..end].to_vec());
            [&journal.text[..start], &line, &journal.text[end..]].concat()
        }
    };
    opening(journal, &text, None)
}

/// Some of everything about a journal; which heads, and which rules, are broken goes by turns.
pub fn about(r: &mut Random, journal: &Journal, turn: usize, counts: &mut Counts) -> Vec<Opening> {
    let last = journal.last();
    counts.add_each(&[
        (true, "whole"),
        (last.log.len() == 256, "whole_full_log"),
        (last.term == u32::MAX.into(), "whole_last_term"),
        (journal.text.len() > 4 * 0x1_0000, "whole_of_many_blocks"),
    ]);
    let length = journal.text.len() + 2;
    let mut all = vec![cut(journal, length, counts)];
    let end = 2 + r.of(&journal.ends);
    let any = r.below(length);
    all.extend([end, end - 1, any].map(|length| cut(journal, length, counts)));
    all.push(bad_asked(r, journal, turn, counts));
    all.extend(bad_head(r, journal, turn, counts));
    all.push(torn(r, journal, counts));
    all.push(long_line(r, journal, counts));
    all.push(damaged(r, journal));
    counts.add("line_feed_doubled_at_end");
    let number = journal.ends.len() + 1;
    let doubled = [&journal.text, &b"\n"[..]].concat();
    counts.add_each(&[(number > 0xffff, "bad_line_above_65535")]);
    all.push(opening(journal, &doubled, bad_line(number)));
    let in_turn = rules().cycle().skip(RULES * turn % rules().count());
    let full = rules().filter(|rule| rule.name == "past_256" && last.last() > 252);
    for rule in in_turn.take(RULES).chain(full) {
        if let Some(opening) = broken(r, journal, rule) {
            counts.add(rule.name);
            all.push(opening);
        }
    }
    all
}

/// Rules broken in each journal.
const RULES: usize = 5;
