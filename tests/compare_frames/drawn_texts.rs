//! Texts of frames: of fields, and such as mostly are no frames.

use support::damage;
use support::random::Random;
use twin::flat_frame;
use twin::frames::LONGEST_TEXT;

use crate::drawn_fields::{
    valid, Fields, COMMIT, COUNT, ENTRIES, FROM, INDEX, KIND, PAST, TERM, TO, YES,
};

/// The frame of valid fields, by the twin.
pub fn valid_text(r: &mut Random) -> Vec<u8> {
    let f = valid(r);
    let mut room = vec![0; length_of(&f)];
    assert_eq!(flat_frame::write(&f, &mut room), 0, "no frame: {f:?}");
    room
}

/// The length that kind and count ask for, line feed counted; where they ask
/// for none, the longest.
pub fn length_of(f: &Fields) -> usize {
    match (f[KIND], f[COUNT]) {
        (1, _) => 29,
        (2, _) => 19,
        (3, count @ 0..=4) => 35 + 24 * count as usize,
        (4, _) => 23,
        _ => LONGEST_TEXT,
    }
}

/// The fields' digits one after the other, whether or not they are a frame, so
/// that the reader meets each broken field as well. Numbers lose what is past
/// the field's bytes.
pub fn spelled(f: &Fields) -> Vec<u8> {
    let mut text = format!(
        "01{:02x}{:02x}{:02x}",
        f[KIND] as u8, f[FROM] as u8, f[TO] as u8
    );
    text += &format!("{:08x}", f[TERM] as u32);
    let index = format!("{:04x}", f[INDEX] as u16);
    let past = format!("{:08x}", f[PAST] as u32);
    let yes = format!("{:02x}", f[YES] as u8);
    match f[KIND] {
        1 => text += &(index + &past),
        2 => text += &yes,
        4 => text += &(yes + &index),
        _ => {
            text += &(index + &past);
            text += &format!("{:04x}{:02x}", f[COMMIT] as u16, f[COUNT] as u8);
            let count = f[COUNT].min(4) as usize;
            for pair in f[ENTRIES..].chunks_exact(2).take(count) {
                text += &format!("{:08x}{:016x}", pair[0] as u32, pair[1]);
            }
        }
    }
    text += "\n";
    text.into_bytes()
}

pub fn joined(r: &mut Random) -> Vec<u8> {
    let text = valid_text(r);
    let other = valid_text(r);
    damage::joined(r, text, other)
}

/// Digits only, as many as a frame has, and a line feed.
pub fn random_digits(r: &mut Random) -> Vec<u8> {
    let length = r.of(&[28, 18, 34, 58, 82, 106, 130, 22]);
    let mut text: Vec<u8> = (0..length).map(|_| r.of(b"0123456789abcdef")).collect();
    text.push(b'\n');
    text
}

/// The same, with version, kind and count right and low digits mostly, so
/// that every rule after these gets its turn.
pub fn likely_digits(r: &mut Random) -> Vec<u8> {
    let mut text = random_digits(r);
    let digits = text.len() - 1;
    for digit in &mut text[..digits] {
        if !r.one_in(16) {
            *digit = r.of(b"00000001");
        }
    }
    let head = match digits {
        28 => b"0101",
        18 => b"0102",
        22 => b"0104",
        _ => b"0103",
    };
    text[..4].copy_from_slice(head);
    if digits >= 34 {
        let count = format!("{:02x}", (digits - 34) / 24);
        text[32..34].copy_from_slice(count.as_bytes());
    }
    // Boxes that are boxes, most of the time.
    for place in [4, 6] {
        if !r.one_in(8) {
            text[place] = b'0';
            text[place + 1] = r.of(b"1234567");
        }
    }
    text
}
