//! Fields of messages: those that are frames, made so by 01's rules, and those that
//! mostly are none.

use support::random::Random;
use support::records::{order, term_within};
use twin::flat_frame::FIELDS;

pub type Fields = [u64; FIELDS];

// The places of the flat form.
pub const KIND: usize = 0;
pub const FROM: usize = 1;
pub const TO: usize = 2;
pub const TERM: usize = 3;
pub const INDEX: usize = 4;
pub const PAST: usize = 5;
pub const COMMIT: usize = 6;
pub const YES: usize = 7;
pub const COUNT: usize = 8;
pub const ENTRIES: usize = 9;

/// At least `low`: near it, at the ends of a byte, or near the last.
fn term_from(r: &mut Random, low: u64) -> u64 {
    let last = u64::from(u32::MAX);
    let term = match r.below(6) {
        0 => low,
        1 => low + 1,
        2 => low + r.between(0, 5),
        3 => r.of(&[1, 255, 256, 257, 65535, 65536, last - 1, last]),
        4 => r.edged(1, last),
        _ => r.next() >> r.between(32, 63),
    };
    term.clamp(low, last)
}

/// An index from 1 to `high`, often near an end or at the limits of a byte.
fn index_to(r: &mut Random, high: u64) -> u64 {
    if r.one_in(4) {
        r.of(&[1, 255, 256]).min(high)
    } else {
        r.edged(1, high)
    }
}

pub fn valid(r: &mut Random) -> Fields {
    let mut f = [0; FIELDS];
    f[KIND] = r.between(1, 4);
    f[FROM] = r.edged(1, 7);
    f[TO] = r.edged(1, 7);
    match f[KIND] {
        1 => {
            if r.one_in(4) {
                f[TERM] = term_from(r, 1);
            } else {
                f[TERM] = term_from(r, 2);
                f[INDEX] = index_to(r, 256);
                f[PAST] = term_within(r, 1, f[TERM] - 1);
            }
        }
        2 => {
            f[TERM] = term_from(r, 1);
            f[YES] = r.between(0, 1);
        }
        3 => {
            f[TERM] = term_from(r, 1);
            f[COUNT] = r.between(0, 4);
            let most = 256 - f[COUNT];
            if !r.one_in(4) {
                // One in three just reaches 256.
                f[INDEX] = if r.one_in(3) { most } else { index_to(r, most) };
                f[PAST] = term_within(r, 1, f[TERM]);
            }
            f[COMMIT] = r.edged(0, 256);
            let mut low = f[PAST].max(1);
            for entry in 0..f[COUNT] as usize {
                low = term_within(r, low, f[TERM]);
                f[ENTRIES + 2 * entry] = low;
                f[ENTRIES + 2 * entry + 1] = order(r);
            }
        }
        _ => {
            f[TERM] = term_from(r, 1);
            f[YES] = r.between(0, 1);
            if f[YES] == 1 {
                f[INDEX] = r.edged(0, 256);
            }
        }
    }
    f
}

/// Numbers at and beside every limit, and past every field's bytes.
fn odd_number(r: &mut Random) -> u64 {
    match r.below(4) {
        0 => r.between(0, 9),
        1 => r.of(&[255, 256, 257, 258, 0xffff, 0x1_0000, 0x1_0001, 0x0100_0000]),
        2 => {
            let past_4_bytes = 1 << 32;
            r.of(&[
                past_4_bytes - 2,
                past_4_bytes - 1,
                past_4_bytes,
                past_4_bytes + 1,
                1 << 63,
                u64::MAX - 1,
                u64::MAX,
            ])
        }
        // One low byte as it may be, with a bit far above it.
        _ => r.between(0, 4) | 1 << r.between(8, 63),
    }
}

/// Valid fields but for one.
pub fn one_broken(r: &mut Random) -> Fields {
    let mut f = valid(r);
    let place = r.below(FIELDS);
    f[place] = match r.below(4) {
        0 => odd_number(r),
        1 => f[place].wrapping_add(1),
        2 => f[place].wrapping_sub(1),
        // Beside the term, where the rules on terms turn.
        _ => f[TERM].wrapping_add(r.between(0, 2)).wrapping_sub(1),
    };
    f
}

/// Valid fields with two of them moved by a little: a sum at 257, an index
/// with its term, a count and what it leaves out.
pub fn limits_passed(r: &mut Random) -> Fields {
    let mut f = valid(r);
    match r.below(5) {
        0 => f[INDEX] = 257 - f[COUNT].min(4),
        1 => {
            f[INDEX] = r.of(&[0, 1, 256, 257]);
            f[PAST] = r.of(&[0, 1, f[TERM], f[TERM] + 1]);
        }
        2 => f[COUNT] = r.between(0, 5),
        3 => {
            f[YES] = r.between(0, 2);
            f[INDEX] = r.of(&[0, 1, 256, 257]);
        }
        _ => {
            f[KIND] = r.between(1, 4);
            f[YES] = r.between(0, 1);
        }
    }
    f
}

pub fn junk(r: &mut Random) -> Fields {
    let mut f = [0; FIELDS];
    for field in &mut f {
        *field = match r.below(4) {
            0 | 1 => r.between(0, 4),
            2 => odd_number(r),
            _ => r.next(),
        };
    }
    f[KIND] = r.of(&[0, 1, 2, 3, 4, 5, 255, 256, 257, 1 << 32 | 1, u64::MAX]);
    f[COUNT] = r.of(&[0, 1, 2, 3, 4, 5, 6, 255, 256, 1 << 32, u64::MAX]);
    f
}

/// Valid fields with a number past the field's bytes, equal in its low bytes.
pub fn too_large(r: &mut Random) -> Fields {
    let mut f = valid(r);
    let place = r.below(FIELDS);
    f[place] |= 1 << r.of(&[8, 16, 31, 32, 33, 63]);
    f
}

/// Valid fields with something in one that is to be 0.
pub fn unused_filled(r: &mut Random) -> Fields {
    let mut f = valid(r);
    let mut unused: Vec<usize> = match f[KIND] {
        1 => vec![COMMIT, YES, COUNT],
        2 => vec![INDEX, PAST, COMMIT, COUNT],
        3 => vec![YES],
        _ => vec![PAST, COMMIT, COUNT],
    };
    unused.extend(ENTRIES + 2 * f[COUNT] as usize..FIELDS);
    f[r.of(&unused)] = if r.one_in(2) { 1 } else { odd_number(r).max(1) };
    f
}
