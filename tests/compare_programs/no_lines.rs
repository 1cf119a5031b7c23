//! Lines that are none, whatever the box.

use support::counts::Counts;
use support::damage::{self, DAMAGES};
use support::journal_lines::head;
use support::random::Random;
use support::received_frames;
use support::records::{self, Record};

type Make = fn(&mut Random, &Record) -> Vec<u8>;

fn order(r: &mut Random) -> String {
    format!("o{:016x}", records::order(r))
}

/// A good one, for those that need it.
pub fn order_line(r: &mut Random) -> Vec<u8> {
    (order(r) + "\n").into()
}

/// Of none of the last terms, in which a box stays for good.
pub fn frame(r: &mut Random, record: &Record) -> Vec<u8> {
    loop {
        let frame = received_frames::frame(r, record);
        if !frame[8..].starts_with(b"ffff") {
            return frame;
        }
    }
}

/// What would be a good line in another place, or a part of a longer one.
fn good_line(r: &mut Random, record: &Record) -> Vec<u8> {
    match r.below(4) {
        0 => b"t\n".to_vec(),
        1 => b"p\n".to_vec(),
        2 => order_line(r),
        _ => frame(r, record),
    }
}

/// A line of so many bytes, its line feed counted, which ends as a good one does.
fn of_length(r: &mut Random, record: &Record, length: usize) -> Vec<u8> {
    let mut end = good_line(r, record);
    if end.len() >= length {
        end = b"t\n".to_vec();
    }
    let fill = r.of(b"00 \0a\xff");
    let mut line = vec![fill; length - end.len()];
    line.extend(end);
    line
}

fn put(r: &mut Random, mut line: Vec<u8>, byte: u8) -> Vec<u8> {
    let place = r.below(line.len());
    line.insert(place, byte);
    line
}

/// One line each, and never one that is taken.
pub const KINDS: [(&str, Make); 25] = [
    ("empty", |_, _| b"\n".to_vec()),
    ("blank", |_, _| b" \n".to_vec()),
    ("blank_in_front", |r, record| {
        [b" ", &good_line(r, record)[..]].concat()
    }),
    ("blank_behind", |r, record| {
        let mut line = good_line(r, record);
        line.insert(line.len() - 1, b' ');
        line
    }),
    ("carriage_return_behind", |r, record| {
        let mut line = good_line(r, record);
        line.insert(line.len() - 1, b'\r');
        line
    }),
    ("carriage_return_alone", |_, _| b"\r\n".to_vec()),
    ("tabulator", |r, record| {
        let line = good_line(r, record);
        put(r, line, b'\t')
    }),
    ("nul_alone", |_, _| b"\0\n".to_vec()),
    ("nul", |r, record| {
        let line = good_line(r, record);
        put(r, line, 0)
    }),
    ("high_byte", |r, record| {
        let (line, byte) = (good_line(r, record), r.between(0x80, 0xff) as u8);
        put(r, line, byte)
    }),
    ("letter_twice", |r, _| {
        r.of(&[b"tt\n", b"pp\n", b"tp\n", b"ot\n"]).to_vec()
    }),
    ("upper_case_letter", |r, _| match r.below(3) {
        0 => b"T\n".to_vec(),
        1 => b"P\n".to_vec(),
        _ => (order(r).replace('o', "O") + "\n").into(),
    }),
    ("other_letter", |r, _| {
        let letter = r.of(b"abcdefghijklmnqrsuvwxyz0123456789");
        vec![letter, b'\n']
    }),
    ("order_without_digits", |_, _| b"o\n".to_vec()),
    ("order_of_15", |r, _| {
        (order(r)[..16].to_string() + "\n").into()
    }),
    ("order_of_17", |r, _| {
        (order(r) + r.of(&["0\n", "f\n"])).into()
    }),
    ("order_of_32", |r, _| {
        (order(r) + &order(r)[1..] + "\n").into()
    }),
    ("order_upper_case", |r, _| {
        let mut line = order(r).into_bytes();
        line.push(b'\n');
        line[1 + r.below(16)] = r.of(b"ABCDEF");
        line
    }),
    ("order_bad_digit", |r, _| {
        let mut line = order(r).into_bytes();
        line.push(b'\n');
        line[1 + r.below(16)] = r.of(b"/:@G`gxo \r\0\x80\xff+-");
        line
    }),
    ("order_digits_alone", |r, _| {
        (order(r)[1..].to_string() + "\n").into()
    }),
    ("head_later", |_, record| {
        let [me, mask, ..] = record.numbers;
        head(me, mask)
    }),
    ("head_of_other_later", |r, _| {
        let (me, mask) = records::membership(r);
        head(me, mask)
    }),
    ("journal_line_later", |r, record| {
        let [me, _, term, vote, last, ..] = record.numbers;
        let term = (term + r.between(0, 1)).clamp(1, 0xffff_ffff);
        let entry = match last < 256 && r.one_in(2) {
            true => format!("01{term:08x}{:016x}", records::order(r)),
            false => "00".into(),
        };
        format!("0110{me:02x}{term:08x}{vote:02x}{last:04x}{entry}\n").into()
    }),
    ("two_on_a_line", |r, record| {
        let mut line = good_line(r, record);
        line.pop();
        line.extend(good_line(r, record));
        line
    }),
    ("refusal", |r, _| format!("n{}\n", r.between(0, 12)).into()),
];

/// About the longest frame, with and without its line feed.
pub const SHORT: [usize; 5] = [130, 131, 132, 133, 134];

/// About a block of what a program reads at once, and several of them.
pub const LONG: [usize; 10] = [
    4095, 4096, 4097, 8193, 65_534, 65_535, 65_536, 65_537, 65_538, 200_000,
];

pub fn any(r: &mut Random, record: &Record, counts: &mut Counts) -> Vec<u8> {
    let (name, make) = r.of(&KINDS);
    counts.add(name);
    make(r, record)
}

pub fn short(r: &mut Random, record: &Record, counts: &mut Counts) -> Vec<u8> {
    let length = r.of(&SHORT);
    counts.add_of("length", length as u64);
    of_length(r, record, length)
}

pub fn long(r: &mut Random, record: &Record, counts: &mut Counts) -> Vec<u8> {
    let length = r.of(&LONG);
    counts.add_of("length", length as u64);
    of_length(r, record, length)
}

/// Mostly no frame; the line feeds that it has may be none or several.
pub fn damaged(r: &mut Random, record: &Record, counts: &mut Counts) -> Vec<u8> {
    let line = frame(r, record);
    match r.below(DAMAGES.len() + 2) {
        0 => {
            counts.add("random_bytes");
            damage::random_bytes(r)
        }
        1 => {
            counts.add("joined");
            let other = frame(r, record);
            damage::joined(r, line, other)
        }
        place => {
            let (name, damage) = DAMAGES[place - 2];
            counts.add(name);
            damage(r, line)
        }
    }
}
