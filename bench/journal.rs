//! Milliseconds for a journal of 100,000 lines: the proved library and the twin,
//! on the same text, in turn. One line each: NAME OURS TWIN RATIO.

use std::hint::black_box;
use std::time::Instant;

use support::measure::{self, spread};
use support::numbers::{Numbers, Orders, Sizes, Terms, NUMBERS};
use support::sides::{Side, OURS, TWIN};

const LINES: u64 = 100_000;

/// Odd, so that the median is one round's reading.
const ROUNDS: usize = 31;

/// What a journal is read into.
#[derive(Clone, PartialEq)]
struct Lent {
    numbers: Numbers,
    terms: Terms,
    orders: Orders,
    sizes: Sizes,
}

const LENT: Lent = Lent {
    numbers: [0; NUMBERS],
    terms: [0; 256],
    orders: [0; 256],
    sizes: [0; 2],
};

type Read = fn(&Side, &[u8], &mut Lent) -> u8;

const HEAD: &str = "0111037f\n";

/// Box 3's line number n: in a term that rises now and then, with so many
/// entries of it.
fn line(n: u64, kept: u64, count: u64) -> String {
    let (term, vote) = (n / 50 + 1, n / 50 % 7 + 1);
    let entries = (0..count).map(|entry| format!("{term:08x}{:016x}", spread(n + entry)));
    let entries = entries.collect::<String>();
    format!("011003{term:08x}{vote:02x}{kept:04x}{count:02x}{entries}\n")
}

/// A journal whose lines have so many entries, of each number in turn. A log
/// that has no room for four more is cut.
fn journal(counts: &[u64]) -> Vec<u8> {
    let mut text = HEAD.to_string();
    let mut last = 0;
    for (n, count) in (0..LINES - 1).zip(counts.iter().cycle()) {
        let kept = if last > 252 { 100 } else { last };
        text += &line(n, kept, *count);
        last = kept + count;
    }
    text.into_bytes()
}

fn open(side: &Side, text: &[u8], lent: &mut Lent) -> u8 {
    (side.open)(
        3,
        text,
        &mut lent.numbers,
        &mut lent.terms,
        &mut lent.orders,
        &mut lent.sizes,
    )
}

/// The head by an opening, then line by line, as for what is longer than memory.
fn replay(side: &Side, text: &[u8], lent: &mut Lent) -> u8 {
    let (head, lines) = text.split_at(HEAD.len());
    let mut answer = open(side, head, lent);
    for line in lines.split_inclusive(|&byte| byte == b'\n') {
        answer |= (side.replay)(line, &mut lent.numbers, &mut lent.terms, &mut lent.orders);
    }
    answer
}

/// A measured side that does nothing, or something else, would win for nothing.
fn check([ours, twin]: &[Side; 2], text: &[u8], whole: usize, read: Read) {
    let (mut by_us, mut by_twin) = (LENT, LENT);
    assert_eq!(read(ours, text, &mut by_us), 0);
    assert_eq!(read(twin, text, &mut by_twin), 0);
    assert!(by_us == by_twin && by_us.sizes[0] == whole as u64);
}

/// Medians of rounds in which the two take turns. Both are called through
/// pointers of one type that the compiler knows nothing of, so neither is
/// inlined.
fn measure(name: &str, text: &[u8], whole: usize, read: Read) {
    let sides = black_box([OURS, TWIN]);
    check(&sides, text, whole, read);
    let mut readings = [Vec::new(), Vec::new()];
    let mut lent = LENT;
    for _ in 0..ROUNDS {
        for (side, readings) in sides.iter().zip(&mut readings) {
            let start = Instant::now();
            black_box(read(side, black_box(text), black_box(&mut lent)));
            readings.push(1000.0 * start.elapsed().as_secs_f64());
        }
    }
    measure::print(name, readings, 2);
}

fn main() {
    let votes = journal(&[0]);
    let orders = journal(&[1]);
    let appends = journal(&[0, 1, 1, 2, 4]);
    measure("open_votes_ms", &votes, votes.len(), open);
    measure("open_orders_ms", &orders, orders.len(), open);
    measure("open_appends_ms", &appends, appends.len(), open);
    // Only the head was opened.
    measure("replay_appends_ms", &appends, HEAD.len(), replay);
}
