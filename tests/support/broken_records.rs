//! Seeded random records of a box that break a single rule of 01, and garbage. They
//! are made from 01's rules alone, so that a rule that the twin forgets is found as
//! well.

use crate::numbers::{
    CANDIDATE, COMMIT, FOLLOWER, LAST, LEADER, MATCH, ME, MEMBERS, NEXT, NUMBERS, ROLE, TERM, VOTE,
    VOTES,
};
use crate::random::Random;
use crate::records::{bit, boxes, good, good_with, part_of, Make, Record, LAST_TERM};

/// Numbers at and beside every limit, and past every field's bytes.
fn odd_number(r: &mut Random) -> u64 {
    match r.below(4) {
        0 => r.between(0, 9),
        1 => r.of(&[127, 128, 255, 256, 257, 258, 0xffff, 0x1_0000, 0x1_0001]),
        2 => r.of(&[
            LAST_TERM - 1,
            LAST_TERM,
            LAST_TERM + 1,
            LAST_TERM + 2,
            1 << 63,
            u64::MAX,
        ]),
        _ => r.next() >> r.between(0, 63),
    }
}

fn any_role(r: &mut Random) -> u64 {
    r.between(FOLLOWER, LEADER)
}

fn any_good(r: &mut Random) -> Record {
    let role = any_role(r);
    good(r, role)
}

fn of_others(r: &mut Random, record: &Record) -> usize {
    r.of(&boxes(record.others())) as usize - 1
}

/// A good record of a leader with a stranger, and the stranger's place.
fn leader_and_stranger(r: &mut Random) -> (Record, usize) {
    let record = good_with(r, LEADER, |record| record.strangers() != 0);
    let stranger = r.of(&boxes(record.strangers())) as usize - 1;
    (record, stranger)
}

fn leader_of_others(r: &mut Random) -> (Record, usize) {
    let record = good_with(r, LEADER, |record| record.others() != 0);
    let other = of_others(r, &record);
    (record, other)
}

/// Every rule of the record, broken as far as possible alone: a box that is
/// none is in no mask either.
pub const BROKEN: [(&str, Make); 35] = [
    ("box_0", |r| {
        let mut record = good(r, FOLLOWER);
        record.set(ME, 0);
        record
    }),
    ("box_above_7", |r| {
        let mut record = good(r, FOLLOWER);
        record.set(ME, r.edged(8, 255));
        record
    }),
    ("mask_bit_7", |r| {
        let mut record = any_good(r);
        record.numbers[MEMBERS] |= 0x80;
        record
    }),
    ("mask_0", |r| {
        let mut record = good_with(r, FOLLOWER, |record| record.get(VOTE) == 0);
        record.set(MEMBERS, 0);
        record
    }),
    ("mask_without_itself", |r| {
        let mut record = good_with(r, FOLLOWER, |record| {
            record.others() != 0 && record.get(VOTE) != record.get(ME)
        });
        record.set(MEMBERS, record.others());
        record
    }),
    ("vote_of_no_member", |r| {
        let mut record = good_with(r, FOLLOWER, |record| record.strangers() != 0);
        record.set(VOTE, r.of(&boxes(record.strangers())));
        record
    }),
    ("vote_of_no_box", |r| {
        let mut record = good(r, FOLLOWER);
        record.set(VOTE, r.edged(8, 255));
        record
    }),
    ("log_above_256", |r| {
        let role = any_role(r);
        let mut record = good_with(r, role, |record| record.get(LAST) == 256);
        record.set(LAST, r.edged(257, 0xffff));
        record
    }),
    ("entry_term_0", |r| {
        let role = any_role(r);
        let mut record = good_with(r, role, |record| record.get(LAST) > 0);
        let zeros = match r.below(2) {
            0 => 1,
            _ => r.edged(1, record.get(LAST)),
        };
        record.terms[..zeros as usize].fill(0);
        record
    }),
    ("entry_terms_fall", |r| {
        let role = any_role(r);
        let mut record = good_with(r, role, |record| {
            record.get(LAST) >= 2 && record.terms[record.get(LAST) as usize - 2] >= 2
        });
        let last = record.get(LAST) as usize;
        let first = 1 + record
            .terms
            .iter()
            .position(|&term| term >= 2)
            .expect("one");
        let place = r.edged(first as u64, last as u64 - 1) as usize;
        let before = u64::from(record.terms[place - 1]);
        record.terms[place] = r.edged(1, before - 1) as u32;
        record
    }),
    ("entry_above_term", |r| {
        let role = any_role(r);
        let mut record = good_with(r, role, |record| record.last_term() >= 2);
        let before = record.last_term();
        record.set(TERM, r.edged(1, before - 1));
        record
    }),
    ("commit_past_log", |r| {
        let mut record = any_good(r);
        record.set(COMMIT, r.edged(record.get(LAST) + 1, 0xffff));
        record
    }),
    ("role_above_2", |r| {
        let mut record = good_with(r, FOLLOWER, |record| {
            record.get(VOTE) == record.get(ME) && record.get(TERM) > 0
        });
        record.set(ROLE, r.edged(3, 255));
        record
    }),
    ("votes_at_follower", |r| {
        let mut record = good(r, FOLLOWER);
        let votes = part_of(r, record.get(MEMBERS)) | bit(record.get(ME));
        record.set(VOTES, votes);
        record
    }),
    ("votes_at_leader", |r| {
        let mut record = good(r, LEADER);
        let votes = part_of(r, record.get(MEMBERS)) | bit(record.get(ME));
        record.set(VOTES, votes);
        record
    }),
    ("votes_without_itself", |r| {
        let mut record = good(r, CANDIDATE);
        record.numbers[VOTES] &= !bit(record.get(ME));
        record
    }),
    ("votes_of_no_member", |r| {
        let mut record = good(r, CANDIDATE);
        let mut strangers = boxes(record.strangers());
        strangers.push(8);
        record.numbers[VOTES] |= bit(r.of(&strangers));
        record
    }),
    ("next_at_follower", |r| {
        let mut record = good(r, FOLLOWER);
        let last = record.get(LAST);
        record.set(NEXT + r.below(7), r.edged(1, last + 1));
        record
    }),
    ("match_at_follower", |r| {
        let mut record = good(r, FOLLOWER);
        record.set(MATCH + r.below(7), r.edged(1, 256));
        record
    }),
    ("next_at_candidate", |r| {
        let mut record = good(r, CANDIDATE);
        let last = record.get(LAST);
        record.set(NEXT + r.below(7), r.edged(1, last + 1));
        record
    }),
    ("match_at_candidate", |r| {
        let mut record = good(r, CANDIDATE);
        record.set(MATCH + r.below(7), r.edged(1, 256));
        record
    }),
    ("next_of_itself", |r| {
        let mut record = good(r, LEADER);
        let me = record.get(ME) as usize - 1;
        record.set(NEXT + me, r.edged(1, record.get(LAST) + 1));
        record
    }),
    ("match_of_itself", |r| {
        let mut record = good(r, LEADER);
        let me = record.get(ME) as usize - 1;
        record.set(MATCH + me, record.get(LAST).max(1));
        record
    }),
    ("next_of_no_member", |r| {
        let (mut record, stranger) = leader_and_stranger(r);
        record.set(NEXT + stranger, r.edged(1, record.get(LAST) + 1));
        record
    }),
    ("match_of_no_member", |r| {
        let (mut record, stranger) = leader_and_stranger(r);
        record.set(MATCH + stranger, record.get(LAST).max(1));
        record
    }),
    ("next_0", |r| {
        let (mut record, other) = leader_of_others(r);
        record.set(NEXT + other, 0);
        record.set(MATCH + other, 0);
        record
    }),
    ("match_at_next", |r| {
        let (mut record, other) = leader_of_others(r);
        record.set(MATCH + other, record.get(NEXT + other));
        record
    }),
    ("match_above_next", |r| {
        let (mut record, other) = leader_of_others(r);
        let matched = r.edged(record.get(NEXT + other) + 1, 0xffff);
        record.set(MATCH + other, matched);
        record
    }),
    ("next_past_log", |r| {
        let (mut record, other) = leader_of_others(r);
        record.set(NEXT + other, r.edged(record.get(LAST) + 2, 0xffff));
        record
    }),
    ("candidate_without_vote", |r| {
        let mut record = good(r, CANDIDATE);
        record.set(VOTE, 0);
        record
    }),
    ("candidate_for_another", |r| {
        let mut record = good_with(r, CANDIDATE, |record| record.others() != 0);
        record.set(VOTE, of_others(r, &record) as u64 + 1);
        record
    }),
    ("leader_without_vote", |r| {
        let mut record = good(r, LEADER);
        record.set(VOTE, 0);
        record
    }),
    ("leader_for_another", |r| {
        let (mut record, other) = leader_of_others(r);
        record.set(VOTE, other as u64 + 1);
        record
    }),
    ("candidate_in_term_0", |r| {
        let mut record = good_with(r, CANDIDATE, |record| record.get(LAST) == 0);
        record.set(TERM, 0);
        record
    }),
    ("leader_in_term_0", |r| {
        let mut record = good_with(r, LEADER, |record| record.get(LAST) == 0);
        record.set(TERM, 0);
        record
    }),
];

/// The bits of each number's field.
pub fn width(place: usize) -> u64 {
    match place {
        TERM => 32,
        LAST | COMMIT => 16,
        NEXT.. => 16,
        _ => 8,
    }
}

/// A good record with a number past its field, equal in its low bits.
pub fn too_large(r: &mut Random, place: usize) -> Record {
    let mut record = any_good(r);
    let first = width(place);
    record.numbers[place] |= 1 << r.edged(first, 63);
    record
}

/// Records that break any number of rules, or none.
pub const ANY: [(&str, Make); 4] = [
    ("one_number_changed", |r| {
        let mut record = any_good(r);
        let place = r.below(NUMBERS);
        let number = record.get(place);
        let changed = match r.below(3) {
            0 => number.wrapping_add(1),
            1 => number.wrapping_sub(1),
            _ => odd_number(r),
        };
        record.set(place, changed);
        record
    }),
    ("one_entry_changed", |r| {
        let mut record = any_good(r);
        let length = record.get(LAST).max(1);
        let place = r.edged(0, length - 1) as usize;
        let entry_term = record.terms[place];
        record.terms[place] = match r.below(3) {
            0 => entry_term.wrapping_add(1),
            1 => entry_term.wrapping_sub(1),
            _ => odd_number(r) as u32,
        };
        record
    }),
    ("small_numbers", |r| {
        let mut numbers = [0; NUMBERS];
        numbers.fill_with(|| r.between(0, 2));
        numbers[MEMBERS] = r.between(0, 0x80);
        Record::with_any_log(numbers, r)
    }),
    ("garbage", |r| {
        let mut numbers = [0; NUMBERS];
        numbers.fill_with(|| odd_number(r));
        Record::with_any_log(numbers, r)
    }),
];
