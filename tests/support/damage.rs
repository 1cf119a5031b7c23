//! Seeded damage to a frame's text. What comes out is mostly no frame; a digit
//! changed may well leave one.

use crate::random::Random;

pub type Damage = fn(&mut Random, Vec<u8>) -> Vec<u8>;

pub const DAMAGES: [(&str, Damage); 11] = [
    ("byte_changed", byte_changed),
    ("digit_changed", digit_changed),
    ("upper_case", upper_case),
    ("byte_dropped", byte_dropped),
    ("byte_added", byte_added),
    ("no_line_feed", no_line_feed),
    ("two_line_feeds", two_line_feeds),
    ("early_line_feed", early_line_feed),
    ("carriage_return", carriage_return),
    ("truncated", truncated),
    ("digits_added", digits_added),
];

fn byte_changed(r: &mut Random, mut text: Vec<u8>) -> Vec<u8> {
    let place = r.below(text.len());
    text[place] = match r.below(4) {
        0 => r.of(b"/:@G`g \r\n\0;"),
        1 => text[place] ^ 1 << r.below(8),
        _ => r.next() as u8,
    };
    text
}

/// Another digit, which may well leave a frame.
fn digit_changed(r: &mut Random, mut text: Vec<u8>) -> Vec<u8> {
    let place = r.below(text.len() - 1);
    text[place] = r.of(b"0123456789abcdef0001");
    text
}

fn upper_case(r: &mut Random, mut text: Vec<u8>) -> Vec<u8> {
    let letters: Vec<usize> = (0..text.len()).filter(|&i| text[i] >= b'a').collect();
    if letters.is_empty() {
        let place = r.below(text.len() - 1);
        text[place] = r.of(b"ABCDEF");
    } else {
        text[r.of(&letters)].make_ascii_uppercase();
    }
    text
}

fn byte_dropped(r: &mut Random, mut text: Vec<u8>) -> Vec<u8> {
    text.remove(r.below(text.len()));
    text
}

fn byte_added(r: &mut Random, mut text: Vec<u8>) -> Vec<u8> {
    let byte = if r.one_in(2) {
        r.of(b"0123456789abcdef")
    } else {
        r.next() as u8
    };
    text.insert(r.below(text.len() + 1), byte);
    text
}

fn no_line_feed(_: &mut Random, mut text: Vec<u8>) -> Vec<u8> {
    text.pop();
    text
}

fn two_line_feeds(_: &mut Random, mut text: Vec<u8>) -> Vec<u8> {
    text.push(b'\n');
    text
}

/// In the middle, either between digits or in place of one.
fn early_line_feed(r: &mut Random, mut text: Vec<u8>) -> Vec<u8> {
    let place = r.below(text.len() - 1);
    if r.one_in(2) {
        text.insert(place, b'\n');
    } else {
        text[place] = b'\n';
    }
    text
}

fn carriage_return(_: &mut Random, mut text: Vec<u8>) -> Vec<u8> {
    text.insert(text.len() - 1, b'\r');
    text
}

/// Short of its end; half of the time with a line feed there.
fn truncated(r: &mut Random, mut text: Vec<u8>) -> Vec<u8> {
    text.truncate(r.below(text.len()));
    if r.one_in(2) {
        text.push(b'\n');
    }
    text
}

/// As many as a length in one byte would not see.
fn digits_added(_: &mut Random, mut text: Vec<u8>) -> Vec<u8> {
    let end = text.len() - 1;
    text.splice(end..end, [b'0'; 256]);
    text
}

/// Two frames, or a frame and the start of another.
pub fn joined(r: &mut Random, mut text: Vec<u8>, mut other: Vec<u8>) -> Vec<u8> {
    if r.one_in(3) {
        text.pop();
    }
    if r.one_in(3) {
        other.truncate(1 + r.below(other.len()));
    }
    text.append(&mut other);
    text
}

pub fn random_bytes(r: &mut Random) -> Vec<u8> {
    let length = r.below(201);
    let mut bytes: Vec<u8> = (0..length).map(|_| r.next() as u8).collect();
    if r.one_in(2) {
        bytes.push(b'\n');
    }
    bytes.truncate(200);
    bytes
}
