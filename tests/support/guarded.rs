//! What is lent to a call stands between guards, which neither side may touch.

use std::fmt;

use crate::numbers::{Numbers, Orders, Sizes, Terms, NUMBERS};
use crate::random::Random;
use crate::records::Record;

/// Numbers or bytes on each side of what is lent.
pub const GUARD: usize = 8;
pub const BOTH: usize = 2 * GUARD;

fn middle<T: Copy, const N: usize>(guarded: &[T]) -> [T; N] {
    guarded[GUARD..][..N].try_into().expect("as many")
}

fn middle_mut<T, const N: usize>(guarded: &mut [T]) -> &mut [T; N] {
    (&mut guarded[GUARD..][..N]).try_into().expect("as many")
}

/// Around so many that were lent, the two are the same.
pub fn same_around<T: PartialEq>(one: &[T], other: &[T], lent: usize) -> bool {
    let end = GUARD + lent;
    one[..GUARD] == other[..GUARD] && one[end..] == other[end..]
}

/// For what is printed at a difference.
pub fn hex<T: fmt::LowerHex>(numbers: &[T]) -> String {
    let numbers: Vec<String> = numbers.iter().map(|n| format!("{n:x}")).collect();
    numbers.join(" ")
}

/// A record with its log and two sizes, as each call on a box or its journal is lent
/// them.
#[derive(Clone, PartialEq)]
pub struct LentRecord {
    numbers: [u64; NUMBERS + BOTH],
    terms: [u32; 256 + BOTH],
    orders: [u64; 256 + BOTH],
    sizes: [u64; 2 + BOTH],
}

impl LentRecord {
    /// The record, and around it and in the sizes a pattern that shows what is
    /// touched.
    pub fn new(record: &Record, r: &mut Random) -> LentRecord {
        let mut lent = LentRecord {
            numbers: [r.next(); NUMBERS + BOTH],
            terms: [r.next() as u32; 256 + BOTH],
            orders: [r.next(); 256 + BOTH],
            sizes: [r.next(); 2 + BOTH],
        };
        *middle_mut(&mut lent.numbers) = record.numbers;
        *middle_mut(&mut lent.terms) = record.terms;
        *middle_mut(&mut lent.orders) = record.orders;
        lent
    }

    pub fn record(&self) -> Record {
        Record {
            numbers: middle(&self.numbers),
            terms: middle(&self.terms),
            orders: middle(&self.orders),
        }
    }

    pub fn sizes(&self) -> Sizes {
        middle(&self.sizes)
    }

    /// For a call.
    pub fn lend(&mut self) -> (&mut Numbers, &mut Terms, &mut Orders, &mut Sizes) {
        (
            middle_mut(&mut self.numbers),
            middle_mut(&mut self.terms),
            middle_mut(&mut self.orders),
            middle_mut(&mut self.sizes),
        )
    }

    /// Around what was lent, this is as before.
    pub fn is_around(&self, before: &LentRecord) -> bool {
        same_around(&self.numbers, &before.numbers, NUMBERS)
            && same_around(&self.terms, &before.terms, 256)
            && same_around(&self.orders, &before.orders, 256)
            && same_around(&self.sizes, &before.sizes, 2)
    }

    /// At a difference; of the log what is not as before.
    pub fn print(&self, before: &LentRecord) {
        let (record, old) = (self.record(), before.record());
        println!("  numbers {}", hex(&record.numbers));
        println!("  sizes {}", hex(&self.sizes()));
        for place in 0..256 {
            let entry = (record.terms[place], record.orders[place]);
            let was = (old.terms[place], old.orders[place]);
            if entry != was {
                println!(
                    "  place {place}: term {:x} order {:x}, was {:x} {:x}",
                    entry.0, entry.1, was.0, was.1
                );
            }
        }
    }
}
