//! Nanoseconds to read and to write a frame: the proved library and the twin,
//! on the same inputs, in turn. One line each: NAME OURS TWIN RATIO.

use std::hint::black_box;
use std::time::{Duration, Instant};

use support::library::{frame_read, frame_write};
use support::measure::{self, spread};
use twin::flat_frame::{self, FIELDS};
use twin::frames::LONGEST_TEXT;

/// Both sides are called through pointers of one type, so neither is inlined.
type Read = unsafe extern "C" fn(*const u8, usize, *mut u64) -> u8;
type Write = unsafe extern "C" fn(*const u64, *mut u8, usize) -> u8;

unsafe extern "C" fn twin_read(text: *const u8, text_len: usize, fields: *mut u64) -> u8 {
    let text = unsafe { std::slice::from_raw_parts(text, text_len) };
    flat_frame::read(text, unsafe { &mut *fields.cast() })
}

unsafe extern "C" fn twin_write(fields: *const u64, room: *mut u8, room_len: usize) -> u8 {
    let room = unsafe { std::slice::from_raw_parts_mut(room, room_len) };
    flat_frame::write(unsafe { &*fields.cast() }, room)
}

/// A message's text and fields.
struct Input {
    text: Vec<u8>,
    fields: [u64; FIELDS],
}

/// Several values of one shape, so that no branch learns a single one.
const INPUTS: u64 = 32;

/// Odd, so that the median is one round's reading.
const ROUNDS: usize = 21;
const ROUND: Duration = Duration::from_millis(6);

fn input(fields: [u64; FIELDS]) -> Input {
    let mut text = vec![0; LONGEST_TEXT];
    let answer = unsafe { twin_write(fields.as_ptr(), text.as_mut_ptr(), text.len()) };
    assert_eq!(answer, 0);
    let end = text
        .iter()
        .position(|&byte| byte == b'\n')
        .expect("a frame");
    text.truncate(end + 1);
    Input { text, fields }
}

fn append4(n: u64) -> Input {
    let (from, to, term) = (1 + n % 7, 1 + n / 7 % 7, 1000 * n + 5);
    let (previous_index, previous_term, commit) = (7 * n + 1, 1000 * n + 1, 7 * n);
    let mut fields = [0; FIELDS];
    fields[..9].copy_from_slice(&[
        3,
        from,
        to,
        term,
        previous_index,
        previous_term,
        commit,
        0,
        4,
    ]);
    for (i, entry) in (0..).zip(fields[9..].chunks_exact_mut(2)) {
        entry[0] = previous_term + i;
        entry[1] = spread(4 * n + i);
    }
    input(fields)
}

fn vote_answer(n: u64) -> Input {
    let mut fields = [0; FIELDS];
    fields[..4].copy_from_slice(&[2, 1 + n % 7, 1 + n / 7 % 7, spread(n) >> 32]);
    fields[7] = n % 2;
    input(fields)
}

/// Calls over all inputs, `passes` times.
fn read_all(read: Read, inputs: &[Input], passes: u32) {
    let read = black_box(read);
    let mut fields = [0; FIELDS];
    for _ in 0..passes {
        for input in inputs {
            let text = black_box(&input.text[..]);
            black_box(unsafe { read(text.as_ptr(), text.len(), fields.as_mut_ptr()) });
            black_box(&fields);
        }
    }
}

fn write_all(write: Write, inputs: &[Input], passes: u32) {
    let write = black_box(write);
    let mut room = [0; LONGEST_TEXT];
    for _ in 0..passes {
        for input in inputs {
            let fields = black_box(&input.fields);
            black_box(unsafe { write(fields.as_ptr(), room.as_mut_ptr(), room.len()) });
            black_box(&room);
        }
    }
}

/// A measured side that does nothing, or something else, would win for nothing.
fn check(inputs: &[Input]) {
    for input in inputs {
        for read in [frame_read as Read, twin_read] {
            let mut fields = [u64::MAX; FIELDS];
            let answer =
                unsafe { read(input.text.as_ptr(), input.text.len(), fields.as_mut_ptr()) };
            assert_eq!((answer, fields), (0, input.fields));
        }
        for write in [frame_write as Write, twin_write] {
            let mut room = vec![0; input.text.len()];
            let answer = unsafe { write(input.fields.as_ptr(), room.as_mut_ptr(), room.len()) };
            assert_eq!((answer, &room), (0, &input.text));
        }
    }
}

fn time(run: &dyn Fn(u32), passes: u32) -> Duration {
    let start = Instant::now();
    run(passes);
    start.elapsed()
}

/// Passes that fill a round; the doubling warms up as well.
fn passes_for(run: &dyn Fn(u32)) -> u32 {
    let mut passes = 1;
    while time(run, passes) < ROUND / 2 {
        passes *= 2;
    }
    passes
}

/// Medians of rounds in which the two take turns.
fn measure(name: &str, ours: &dyn Fn(u32), twin: &dyn Fn(u32)) {
    let sides = [(ours, passes_for(ours)), (twin, passes_for(twin))];
    let mut readings = [Vec::new(), Vec::new()];
    for _ in 0..ROUNDS {
        for ((run, passes), readings) in sides.iter().zip(&mut readings) {
            let nanos = time(run, *passes).as_nanos() as f64;
            readings.push(nanos / f64::from(*passes) / INPUTS as f64);
        }
    }
    measure::print(name, readings, 1);
}

fn main() {
    let appends: Vec<Input> = (0..INPUTS).map(append4).collect();
    let answers: Vec<Input> = (0..INPUTS).map(vote_answer).collect();
    check(&appends);
    check(&answers);

    for (name, inputs) in [("read_append4", &appends), ("read_vote_answer", &answers)] {
        measure(
            name,
            &|passes| read_all(frame_read, inputs, passes),
            &|passes| read_all(twin_read, inputs, passes),
        );
    }
    for (name, inputs) in [("write_append4", &appends), ("write_vote_answer", &answers)] {
        measure(
            name,
            &|passes| write_all(frame_write, inputs, passes),
            &|passes| write_all(twin_write, inputs, passes),
        );
    }
}
