//! Nanoseconds for a step of the box: the proved library and the twin, on the
//! same records, in turn. One line each: NAME OURS TWIN RATIO.

use std::hint::black_box;
use std::time::{Duration, Instant};

use support::measure::{self, spread};
use support::numbers::{Numbers, Orders, Terms, LAST, MATCH, ME, NEXT, NUMBERS, TERM, VOTES};
use support::sides::{Side, OURS, TWIN};
use twin::flat_record::to_flat;
use twin::record::{Node, CANDIDATE, FOLLOWER, LEADER};

const JOURNAL: usize = 128;
const ROOM: usize = 400;

/// A record, and the memory a step is given. A step starts from the record's
/// numbers each time; what it adds to the log lies past it and is the same each
/// time.
#[derive(Clone, PartialEq)]
struct Input {
    record: Numbers,
    numbers: Numbers,
    terms: Terms,
    orders: Orders,
    order: u64,
    text: Vec<u8>,
    journal: [u8; JOURNAL],
    room: [u8; ROOM],
    sizes: [u64; 2],
}

type Step = fn(&Side, &mut Input) -> u8;

/// Several values of one shape, so that no branch learns a single one.
const INPUTS: u64 = 16;

/// Odd, so that the median is one round's reading.
const ROUNDS: usize = 21;
const ROUND: Duration = Duration::from_millis(7);

/// A box of seven with some 100 entries; a leader has sent all of them, and
/// most boxes have them.
fn input(n: u64, role: u8) -> Input {
    let me = 1 + (n % 7) as u8;
    let last = 95 + (n % 11) as u16;
    let term = 1000 + n as u32;
    let mut node = Node {
        me,
        members: 0x7f,
        term,
        vote: me,
        last,
        commit: last - 3,
        role,
        votes: 0,
        next: [0; 7],
        matched: [0; 7],
    };
    let others = (0..7).filter(|place| *place != usize::from(me - 1));
    for place in others.filter(|_| role == LEADER) {
        node.next[place] = last + 1;
        node.matched[place] = last - (spread(n + place as u64) >> 62) as u16;
    }
    let mut terms = [0; 256];
    let mut orders = [0; 256];
    for (place, (entry_term, order)) in terms.iter_mut().zip(&mut orders).enumerate() {
        *entry_term = (term - 20 + place as u32 / 5).min(term);
        *order = spread(n + place as u64);
    }
    Input {
        record: to_flat(&node),
        numbers: [0; NUMBERS],
        terms,
        orders,
        order: spread(n),
        text: Vec::new(),
        journal: [0; JOURNAL],
        room: [0; ROOM],
        sizes: [0; 2],
    }
}

impl Input {
    /// The box that the frame comes from.
    fn from(&self) -> u64 {
        self.record[ME] % 7 + 1
    }

    fn last(&self) -> (u64, u32) {
        let last = self.record[LAST];
        (last, self.terms[last as usize - 1])
    }

    /// With a frame of this kind and term to the box; `rest` are the digits past
    /// the term.
    fn frame(mut self, kind: u8, term: u64, rest: String) -> Input {
        let (from, me) = (self.from(), self.record[ME]);
        let text = format!("01{kind:02x}{from:02x}{me:02x}{term:08x}{rest}\n");
        self.text = text.into_bytes();
        self
    }

    /// An append of so many entries to the log's end.
    fn append(self, count: u64) -> Input {
        let ((last, last_term), term) = (self.last(), self.record[TERM]);
        let fixed = format!("{last:04x}{last_term:08x}{:04x}{count:02x}", last - 1);
        let entries = (0..count).map(|entry| format!("{term:08x}{:016x}", spread(entry)));
        let rest = fixed + &entries.collect::<String>();
        self.frame(3, term, rest)
    }

    /// The box that says yes has all.
    fn append_yes(self) -> Input {
        let (term, (last, _)) = (self.record[TERM], self.last());
        self.frame(4, term, format!("01{last:04x}"))
    }

    /// The box that says no is far behind.
    fn append_no(mut self) -> Input {
        let place = self.from() as usize - 1;
        self.record[NEXT + place] = 50;
        self.record[MATCH + place] = 0;
        let term = self.record[TERM];
        self.frame(4, term, "000000".into())
    }

    /// The yes that makes four of seven, from the box next to this one: it has its own
    /// and those of the two before it.
    fn vote_yes(mut self) -> Input {
        let (term, me) = (self.record[TERM], self.record[ME]);
        let bit = |ahead: u64| 1 << ((me - 1 + ahead) % 7);
        self.record[VOTES] = bit(0) | bit(5) | bit(6);
        self.frame(2, term, "01".into())
    }

    /// From a box with the same log that stands in the next term.
    fn vote_request(self) -> Input {
        let (term, (last, last_term)) = (self.record[TERM] + 1, self.last());
        self.frame(1, term, format!("{last:04x}{last_term:08x}"))
    }
}

fn timeout(side: &Side, input: &mut Input) -> u8 {
    input.numbers = input.record;
    (side.timeout)(
        &mut input.numbers,
        &mut input.terms,
        &mut input.orders,
        &mut input.journal,
        &mut input.room,
        &mut input.sizes,
    )
}

fn prompt(side: &Side, input: &mut Input) -> u8 {
    input.numbers = input.record;
    (side.prompt)(
        &mut input.numbers,
        &input.terms,
        &input.orders,
        &mut input.journal,
        &mut input.room,
        &mut input.sizes,
    )
}

fn order(side: &Side, input: &mut Input) -> u8 {
    input.numbers = input.record;
    (side.order)(
        input.order,
        &mut input.numbers,
        &mut input.terms,
        &mut input.orders,
        &mut input.journal,
        &mut input.room,
        &mut input.sizes,
    )
}

fn receive(side: &Side, input: &mut Input) -> u8 {
    input.numbers = input.record;
    (side.receive)(
        &input.text,
        &mut input.numbers,
        &mut input.terms,
        &mut input.orders,
        &mut input.journal,
        &mut input.room,
        &mut input.sizes,
    )
}

/// A measured side that does nothing, or something else, would win for nothing.
fn check([ours, twin]: &[Side; 2], inputs: &[Input], sizes: [u64; 2], step: Step) {
    for input in inputs {
        let mut by_us = input.clone();
        let mut by_twin = input.clone();
        assert_eq!((step(ours, &mut by_us), step(twin, &mut by_twin)), (0, 0));
        assert!(by_us == by_twin && by_us.sizes == sizes);
    }
}

/// Steps from all records, `passes` times.
fn run(inputs: &mut [Input], passes: u32, step: Step, side: &Side) -> Duration {
    let start = Instant::now();
    for _ in 0..passes {
        for input in &mut *inputs {
            black_box(step(side, black_box(input)));
        }
    }
    start.elapsed()
}

/// Passes that fill a round; the doubling warms up as well.
fn passes_for(inputs: &mut [Input], step: Step, side: &Side) -> u32 {
    let mut passes = 1;
    while run(inputs, passes, step, side) < ROUND / 2 {
        passes *= 2;
    }
    passes
}

/// Medians of rounds in which the two take turns. Both are called through
/// pointers of one type that the compiler knows nothing of, so neither is
/// inlined.
fn measure(name: &str, mut inputs: Vec<Input>, sizes: [u64; 2], step: Step) {
    let sides = black_box([OURS, TWIN]);
    check(&sides, &inputs, sizes, step);
    let passes = sides
        .each_ref()
        .map(|side| passes_for(&mut inputs, step, side));
    let mut readings = [Vec::new(), Vec::new()];
    for _ in 0..ROUNDS {
        for ((side, passes), readings) in sides.iter().zip(passes).zip(&mut readings) {
            let nanos = run(&mut inputs, passes, step, side).as_nanos() as f64;
            readings.push(nanos / f64::from(passes) / INPUTS as f64);
        }
    }
    measure::print(name, readings, 1);
}

fn main() {
    let inputs = |role, with: fn(Input) -> Input| {
        let inputs = (0..INPUTS).map(|n| with(input(n, role)));
        inputs.collect::<Vec<Input>>()
    };
    let leaders = inputs(LEADER, |input| input);
    let followers = inputs(FOLLOWER, |input| input);

    // Bytes of the line and of the messages to six boxes.
    measure("order_seven", leaders.clone(), [47, 6 * 59], order);
    measure("timeout_seven", followers, [23, 6 * 29], timeout);
    measure("prompt_seven", leaders, [0, 6 * 35], prompt);

    // And of one answer, or of the append of four that follows a no.
    let append0 = inputs(FOLLOWER, |input| input.append(0));
    let append1 = inputs(FOLLOWER, |input| input.append(1));
    let append4 = inputs(FOLLOWER, |input| input.append(4));
    let yes = inputs(LEADER, Input::append_yes);
    let no = inputs(LEADER, Input::append_no);
    let vote_request = inputs(FOLLOWER, Input::vote_request);
    let wins = inputs(CANDIDATE, Input::vote_yes);
    measure("receive_append0", append0, [0, 23], receive);
    measure("receive_append1", append1, [47, 23], receive);
    measure("receive_append4", append4, [119, 23], receive);
    measure("receive_append_yes_seven", yes, [0, 0], receive);
    measure("receive_append_no_seven", no, [0, 131], receive);
    measure("receive_vote_request", vote_request, [23, 19], receive);
    // The blank's line, and the first appends.
    measure("receive_vote_wins_seven", wins, [47, 6 * 59], receive);
}
