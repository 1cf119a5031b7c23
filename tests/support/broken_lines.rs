//! Every rule of a journal broken alone, in every kind of line that it can be
//! broken in.

use crate::damage;
use crate::journal_lines::{
    self, Line, Stored, ADDS, ADDS_AGAIN, CUTS_AND_ADDS, LONGEST_LOG, MOST_ENTRIES, RAISES,
};
use crate::random::Random;
use crate::records::{boxes, LAST_TERM};

/// The bad line's bytes, made of a good one; None where the stored part or the
/// line does not allow it.
type Break = fn(&mut Random, &Stored, Line) -> Option<Vec<u8>>;

pub struct Broken {
    pub name: &'static str,
    /// The places in `KINDS` of the lines that can break it.
    pub kinds: &'static [usize],
    pub make: Break,
}

const ALL: &[usize] = &[0, 1, 2, 3, 4, 5, 6];
const WITH_VOTE: &[usize] = &[0, 2, 3, 4, 5, 6];
const WITH_ENTRIES: &[usize] = &[ADDS, CUTS_AND_ADDS, ADDS_AGAIN];

const fn broken(name: &'static str, kinds: &'static [usize], make: Break) -> Broken {
    Broken { name, kinds, make }
}

/// A line whose vote may be any.
fn with_free_vote(stored: &Stored, mut line: Line) -> Option<Line> {
    if line.term == stored.term && stored.vote != 0 {
        line.term += 1;
    }
    (line.term <= LAST_TERM).then_some(line)
}

/// A line in the box's own term, which has a vote already.
fn with_bound_vote(stored: &Stored, mut line: Line) -> Option<Line> {
    line.term = stored.term;
    line.vote = stored.vote;
    line.lower(stored.term);
    (stored.vote != 0).then_some(line)
}

fn strangers(mask: u64) -> Vec<u64> {
    boxes(0x7f & !mask)
}

pub(crate) fn one_of(r: &mut Random, choices: Vec<u64>) -> Option<u64> {
    (!choices.is_empty()).then(|| r.of(&choices))
}

pub(crate) fn others_than(number: u64, choices: Vec<u64>) -> Vec<u64> {
    choices.into_iter().filter(|one| *one != number).collect()
}

/// The text with the two digits of one byte changed.
pub(crate) fn with_byte(mut text: Vec<u8>, place: usize, byte: u64) -> Vec<u8> {
    text[2 * place..][..2].copy_from_slice(format!("{byte:02x}").as_bytes());
    text
}

static TERMS_AND_VOTES: [Broken; 11] = [
    broken("another_box", ALL, |r, stored, mut line| {
        line.me = one_of(r, others_than(stored.me, boxes(0x7f)))?;
        Some(line.text())
    }),
    broken("no_box", ALL, |r, _, mut line| {
        line.me = r.of(&[0, 8, 255, line.me + 8, line.me + 128]);
        Some(line.text())
    }),
    broken("term_0", &[RAISES], |_, stored, mut line| {
        line.term = 0;
        (stored.term == 0).then(|| line.text())
    }),
    broken("term_0_later", ALL, |_, stored, mut line| {
        line.term = 0;
        (stored.term != 0).then(|| line.text())
    }),
    broken("term_falls", ALL, |r, stored, mut line| {
        let least = stored.term_at(line.kept).max(1);
        if least >= stored.term {
            return None;
        }
        line.term = r.edged(least, stored.term - 1);
        line.lower(line.term);
        Some(line.text())
    }),
    broken("vote_of_a_stranger", ALL, |r, stored, line| {
        let mut line = with_free_vote(stored, line)?;
        line.vote = one_of(r, strangers(stored.mask))?;
        Some(line.text())
    }),
    broken("vote_8", ALL, |_, stored, line| {
        let mut line = with_free_vote(stored, line)?;
        line.vote = 8;
        Some(line.text())
    }),
    broken("vote_255", ALL, |_, stored, line| {
        let mut line = with_free_vote(stored, line)?;
        line.vote = 255;
        Some(line.text())
    }),
    broken("vote_of_no_box", ALL, |r, stored, line| {
        let mut line = with_free_vote(stored, line)?;
        line.vote = match r.one_in(2) {
            true => stored.me + 8 * r.between(1, 31),
            false => r.between(8, 255),
        };
        Some(line.text())
    }),
    broken("vote_changed", WITH_VOTE, |r, stored, line| {
        let mut line = with_bound_vote(stored, line)?;
        line.vote = one_of(r, others_than(stored.vote, boxes(stored.mask)))?;
        Some(line.text())
    }),
    broken("vote_back_to_0", WITH_VOTE, |_, stored, line| {
        let mut line = with_bound_vote(stored, line)?;
        line.vote = 0;
        Some(line.text())
    }),
];

static LOGS: [Broken; 10] = [
    broken("kept_past_length", ALL, |r, stored, mut line| {
        let (least, most) = (stored.last() + 1, LONGEST_LOG - line.count);
        if least > most {
            return None;
        }
        line.kept = r.edged(least, most);
        // In order after whatever an opening still has there.
        for entry in &mut line.entries {
            entry.0 = line.term;
        }
        Some(line.text())
    }),
    broken("kept_past_256", ALL, |r, stored, mut line| {
        line.kept = match r.below(3) {
            0 => LONGEST_LOG + line.kept.max(1),
            1 => 0xffff - r.between(0, 4),
            _ => r.between(257, 0xffff),
        };
        (line.kept > stored.last()).then(|| line.text())
    }),
    broken("count_5", ALL, |r, stored, line| {
        let room = LONGEST_LOG - line.kept;
        let count = match r.below(8) {
            0 => r.between(5, 255).min(room),
            _ => 5,
        };
        let added = journal_lines::entries(r, stored, &line, count);
        (5..=room).contains(&count).then(|| line.with(added).text())
    }),
    broken("past_256", &[ADDS, CUTS_AND_ADDS], |r, stored, mut line| {
        let least = LONGEST_LOG + 1 - MOST_ENTRIES;
        if line.kept < stored.last() {
            let most = stored.last() - 1;
            line.kept = r.edged(least.min(most), most);
        }
        let room = LONGEST_LOG - line.kept;
        let count = r.between(1, MOST_ENTRIES).max(room + 1);
        let added = journal_lines::entries(r, stored, &line, count);
        (count <= MOST_ENTRIES).then(|| line.with(added).text())
    }),
    broken(
        "entry_term_0",
        &[ADDS, CUTS_AND_ADDS],
        |r, stored, mut line| {
            // A line that only adds has nothing before it only in an empty log.
            if line.kept == stored.last() && line.kept > 0 {
                return None;
            }
            line.kept = 0;
            let zeros = r.between(1, line.count);
            for entry in &mut line.entries[..zeros as usize] {
                entry.0 = 0;
            }
            Some(line.text())
        },
    ),
    broken("entry_terms_fall", WITH_ENTRIES, |r, _, mut line| {
        let falls = |place: &u64| line.entries[*place as usize - 1].0 >= 2;
        let place = one_of(r, (1..line.count).filter(falls).collect())? as usize;
        line.entries[place].0 = r.edged(1, line.entries[place - 1].0 - 1);
        Some(line.text())
    }),
    broken(
        "entry_terms_fall_after_kept",
        WITH_ENTRIES,
        |r, stored, mut line| {
            let previous = stored.term_at(line.kept);
            if previous < 2 {
                return None;
            }
            line.entries[0].0 = r.edged(1, previous - 1);
            if r.one_in(2) {
                line.lower(line.entries[0].0);
            }
            Some(line.text())
        },
    ),
    broken("entry_above_term", WITH_ENTRIES, |r, _, mut line| {
        let above = r.edged((line.term + 1).min(LAST_TERM), LAST_TERM);
        let place = r.below(line.entries.len());
        for entry in &mut line.entries[place..] {
            entry.0 = above;
        }
        (above > line.term).then(|| line.text())
    }),
    broken("count_above_entries", ALL, |r, _, mut line| {
        line.count = match r.one_in(2) {
            true => r.between(line.count + 1, MOST_ENTRIES + 1),
            false => line.count + r.of(&[8, 16, 32, 64, 128]),
        };
        Some(line.text())
    }),
    broken("count_below_entries", WITH_ENTRIES, |r, _, mut line| {
        line.count = r.between(0, line.count - 1);
        Some(line.text())
    }),
];

/// Bytes that are no digit, those beside the digits among them.
pub(crate) fn no_digit(r: &mut Random) -> u8 {
    loop {
        let byte = match r.one_in(2) {
            true => r.of(b"/:@AFG`g \r\t\0\x80\xff"),
            false => r.next() as u8,
        };
        if !b"0123456789abcdef\n".contains(&byte) {
            return byte;
        }
    }
}

static TEXTS: [Broken; 17] = [
    broken("version", ALL, |r, _, line| {
        let version = r.of(&[0x00, 0x02, 0x10, 0x11, 0x81, 0xff]);
        Some(with_byte(line.text(), 0, version))
    }),
    broken("kind", ALL, |r, _, line| {
        let kind = r.of(&[0x00, 0x01, 0x03, 0x0f, 0x11, 0x12, 0x90, 0xff]);
        Some(with_byte(line.text(), 1, kind))
    }),
    broken("no_digit", ALL, |r, _, line| {
        let mut text = line.text();
        let place = r.below(text.len() - 1);
        text[place] = no_digit(r);
        Some(text)
    }),
    broken("upper_case", ALL, |r, _, line| {
        let mut text = line.text();
        let letters: Vec<usize> = (0..text.len()).filter(|&at| text[at] >= b'a').collect();
        if letters.is_empty() {
            return None;
        }
        text[r.of(&letters)].make_ascii_uppercase();
        Some(text)
    }),
    broken("one_digit_less", ALL, |r, _, line| {
        let mut text = line.text();
        text.remove(r.below(text.len() - 1));
        Some(text)
    }),
    broken("one_digit_more", ALL, |r, _, line| {
        let mut text = line.text();
        text.insert(r.below(text.len()), r.of(b"0123456789abcdef"));
        Some(text)
    }),
    broken("one_byte_more", ALL, |r, _, line| {
        let mut text = line.text();
        let end = text.len() - 1;
        text.splice(end..end, *b"00");
        text[end] = r.of(b"00f");
        Some(text)
    }),
    broken("many_digits_more", ALL, |r, _, line| {
        let mut text = line.text();
        let end = text.len() - 1;
        let more = r.of(&[24, 96, 256, 512, 0x1_0000, 0x1_0000]);
        text.splice(end..end, vec![b'0'; more]);
        Some(text)
    }),
    broken("blank", ALL, |r, _, line| {
        let mut text = line.text();
        let place = r.of(&[0, 2, text.len() - 1]);
        text.insert(place, b' ');
        Some(text)
    }),
    broken("carriage_return", ALL, |_, _, line| {
        let mut text = line.text();
        text.insert(text.len() - 1, b'\r');
        Some(text)
    }),
    broken("line_feed_missing", ALL, |r, stored, line| {
        let mut text = line.text();
        text.pop();
        let next = stored.after(&line);
        text.extend(journal_lines::any(r, &next).text());
        Some(text)
    }),
    broken("line_feed_inside", ALL, |r, _, line| {
        let mut text = line.text();
        let place = r.between(1, text.len() as u64 - 2) as usize;
        match r.one_in(2) {
            true => text.insert(place, b'\n'),
            false => text[place] = b'\n',
        }
        Some(text)
    }),
    // After the line before, this is the second of two line feeds.
    broken("line_feed_doubled", ALL, |_, _, line| {
        Some([b"\n".to_vec(), line.text()].concat())
    }),
    broken("empty_line", ALL, |_, _, _| Some(b"\n".to_vec())),
    broken("head_again", ALL, |_, stored, _| Some(stored.head())),
    broken("frame", ALL, |r, stored, line| {
        let from = r.of(&boxes(0x7f));
        let (me, term) = (stored.me, line.term);
        Some(format!("0102{from:02x}{me:02x}{term:08x}01\n").into())
    }),
    broken("random_bytes", ALL, |r, _, _| {
        let mut bytes = damage::random_bytes(r);
        bytes.insert(0, no_digit(r));
        bytes.push(b'\n');
        Some(bytes)
    }),
];

/// All of them.
pub fn rules() -> impl Iterator<Item = &'static Broken> + Clone {
    TERMS_AND_VOTES.iter().chain(&LOGS).chain(&TEXTS)
}
