//! 01's 'Readings from the bench' of a box, run on the proved library. Where 01
//! gives bytes, these are expected; else what its words and its table make, and
//! those of T-01.

use support::library;
use support::numbers::{Numbers, Orders, Sizes, Terms};
use support::numbers::{CANDIDATE, COMMIT, FOLLOWER, LAST, LEADER, ME, MEMBERS, NEXT, ROLE};
use support::numbers::{TERM, VOTE};
use support::random::Random;
use support::text::lines;

/// A box as the library's callers hold it, and what is lent to it.
#[derive(Clone, PartialEq)]
struct Bench {
    numbers: Numbers,
    terms: Terms,
    orders: Orders,
    journal: [u8; 119],
    room: [u8; 786],
    sizes: Sizes,
}

const BENCH: Bench = Bench {
    numbers: [0; 22],
    terms: [0; 256],
    orders: [0; 256],
    journal: [0; 119],
    room: [0; 786],
    sizes: [0; 2],
};

impl Bench {
    /// Box 1 in a term, with a log of these terms.
    fn with_log(mask: u64, term: u64, terms: &[u32]) -> Bench {
        let mut bench = BENCH;
        bench.numbers[ME] = 1;
        bench.numbers[MEMBERS] = mask;
        bench.numbers[TERM] = term;
        bench.numbers[LAST] = terms.len() as u64;
        bench.terms[..terms.len()].copy_from_slice(terms);
        bench
    }

    fn start(&mut self, me: u8, mask: u8) -> u64 {
        library::start(me, mask, &mut self.numbers, &mut self.room)
    }

    fn timeout(&mut self) -> u8 {
        library::timeout(
            &mut self.numbers,
            &mut self.terms,
            &mut self.orders,
            &mut self.journal,
            &mut self.room,
            &mut self.sizes,
        )
    }

    fn order(&mut self, order: u64) -> u8 {
        library::order(
            order,
            &mut self.numbers,
            &mut self.terms,
            &mut self.orders,
            &mut self.journal,
            &mut self.room,
            &mut self.sizes,
        )
    }

    /// The blanks between fields are for the reader of these checks only; the
    /// line feed is added.
    fn receive(&mut self, frame: &str) -> u8 {
        library::receive(
            lines(&[frame]).as_bytes(),
            &mut self.numbers,
            &mut self.terms,
            &mut self.orders,
            &mut self.journal,
            &mut self.room,
            &mut self.sizes,
        )
    }

    fn open(&mut self, journal: &[u8]) -> u8 {
        library::open(
            1,
            journal,
            &mut self.numbers,
            &mut self.terms,
            &mut self.orders,
            &mut self.sizes,
        )
    }

    fn handed_out(&self) -> (u8, u64) {
        let mut count = 0;
        let answer = library::handed_out(&self.numbers, &self.terms, &self.orders, &mut count);
        (answer, count)
    }

    /// What the last step wrote.
    fn written(&self) -> (String, String) {
        let text = |room: &[u8], size: u64| String::from_utf8_lossy(&room[..size as usize]).into();
        (
            text(&self.journal, self.sizes[0]),
            text(&self.room, self.sizes[1]),
        )
    }

    fn log(&self) -> &[u32] {
        &self.terms[..self.numbers[LAST] as usize]
    }
}

/// A journal line or none, and the messages.
fn writes(line: &[&str], messages: &[&str]) -> (String, String) {
    (lines(line), lines(messages))
}

#[test]
fn box_1_of_07_and_a_timeout() {
    let mut bench = BENCH;
    assert_eq!(bench.start(1, 0x07), 256 * 9);
    assert_eq!(&bench.room[..9], b"01110107\n");
    assert_eq!(bench.timeout(), 0);
    assert_eq!(bench.sizes, [23, 58]);
    assert_eq!(&bench.journal[..23], b"0110010000000101000000\n");
    assert_eq!(
        &bench.room[..58],
        b"0101010200000001000000000000\n0101010300000001000000000000\n"
    );
}

/// Box 1 of 07 after the timeout and box 2's yes.
fn elected() -> Bench {
    let mut bench = BENCH;
    bench.start(1, 0x07);
    assert_eq!(bench.timeout(), 0);
    assert_eq!(bench.receive("010202010000000101"), 0);
    bench
}

#[test]
fn box_2_says_yes() {
    let bench = elected();
    assert_eq!(bench.numbers[ROLE], LEADER);
    // The blank is stored, and the first appends carry it.
    let line = "01 10 01 00000001 01 0000 01 00000001 0000000000000000";
    let appends = [
        "01 03 01 02 00000001 0000 00000000 0000 01 00000001 0000000000000000",
        "01 03 01 03 00000001 0000 00000000 0000 01 00000001 0000000000000000",
    ];
    assert_eq!(bench.written(), writes(&[line], &appends));
    assert_eq!((bench.numbers[LAST], bench.numbers[COMMIT]), (1, 0));
    assert_eq!(
        bench.numbers[NEXT..],
        [[0, 1, 1, 0, 0, 0, 0], [0; 7]].concat()
    );
}

#[test]
fn yes_from_2_to_index_1() {
    let mut bench = elected();
    assert_eq!(bench.order(0xfedcba9876543210), 0);
    let entries = "00000001 0000000000000000 00000001 fedcba9876543210";
    let append = |to| format!("01 03 01 {to} 00000001 0000 00000000 0000 02 {entries}");
    let line = "01 10 01 00000001 01 0001 01 00000001 fedcba9876543210";
    assert_eq!(
        bench.written(),
        writes(&[line], &[&append("02"), &append("03")])
    );
    assert_eq!(bench.handed_out(), (0, 0));

    // The blank is committed, and box 2 gets the order again.
    assert_eq!(bench.receive("0104020100000001010001"), 0);
    let order = "01 03 01 02 00000001 0001 00000001 0001 01 00000001 fedcba9876543210";
    assert_eq!(bench.written(), writes(&[], &[order]));
    assert_eq!(bench.handed_out(), (0, 1));
    assert_eq!(bench.receive("0104020100000001010002"), 0);
    assert_eq!(bench.written(), writes(&[], &[]));
    assert_eq!(bench.handed_out(), (0, 2));
}

/// Box 1 of 07 in term 5, one yes away from leading, with older entries.
fn candidate(length: usize) -> Bench {
    let mut bench = Bench::with_log(0x07, 4, &vec![3; length]);
    bench.orders = [u64::MAX; 256];
    assert_eq!(bench.timeout(), 0);
    bench
}

#[test]
fn a_log_of_255_takes_the_blank() {
    let mut bench = candidate(255);
    assert_eq!(bench.receive("01 02 02 01 00000005 01"), 0);
    let blank = "00000005 0000000000000000";
    let line = format!("01 10 01 00000005 01 00ff 01 {blank}");
    let append = |to| format!("01 03 01 {to} 00000005 00ff 00000003 0000 01 {blank}");
    assert_eq!(
        bench.written(),
        writes(&[&line], &[&append("02"), &append("03")])
    );
    assert_eq!(
        (bench.log()[254..].to_vec(), bench.numbers[NEXT + 1]),
        (vec![3, 5], 256)
    );
    assert_eq!(bench.orders[254..], [u64::MAX, 0]);
    assert_eq!(bench.order(7), 4);
}

#[test]
fn a_log_of_256_takes_no_blank() {
    let mut bench = candidate(256);
    let log = (bench.terms, bench.orders);
    assert_eq!(bench.receive("01 02 02 01 00000005 01"), 0);
    let append = |to| format!("01 03 01 {to} 00000005 0100 00000003 0000 00");
    assert_eq!(
        bench.written(),
        writes(&[], &[&append("02"), &append("03")])
    );
    assert_eq!(
        (bench.numbers[ROLE], bench.numbers[NEXT + 1]),
        (LEADER, 257)
    );
    assert_eq!((bench.terms, bench.orders), log);
    assert_eq!((bench.order(0), bench.order(7)), (13, 4));
}

/// One line has term, vote and blank; what is older is handed out with it.
#[test]
fn one_member_commits_its_blank_at_once() {
    for (length, entry, handed_out) in [(0, 1, 1), (2, 1, 3), (255, 1, 256), (256, 0, 0)] {
        let mut bench = Bench::with_log(0x01, 4, &vec![3; length]);
        bench.orders = [u64::MAX; 256];
        assert_eq!(bench.timeout(), 0);
        let blank = ["", "00000005 0000000000000000"][entry];
        let line = format!("01 10 01 00000005 01 {length:04x} 0{entry} {blank}");
        assert_eq!(bench.written(), writes(&[&line], &[]));
        assert_eq!(bench.handed_out(), (0, handed_out));
        assert_eq!(bench.log()[length..], [5][..entry]);
        assert_eq!(bench.orders[length..][..entry], [0][..entry]);
    }
}

/// Nothing is touched, the lent log neither.
#[test]
fn winning_without_the_room_for_it_is_5() {
    let mut bench = candidate(2);
    let before = bench.clone();
    let yes = lines(&["01 02 02 01 00000005 01"]);
    for (journal, room) in [(46, 118), (47, 117), (0, 118), (47, 0)] {
        let answer = library::receive(
            yes.as_bytes(),
            &mut bench.numbers,
            &mut bench.terms,
            &mut bench.orders,
            &mut bench.journal[..journal],
            &mut bench.room[..room],
            &mut bench.sizes,
        );
        assert_eq!(answer, 5);
        assert!(bench == before);
    }
    assert_eq!(bench.receive(&yes[..18]), 0);
    assert_eq!(bench.sizes, [47, 118]);
}

/// Checked after 3 and before 4.
#[test]
fn an_order_of_zeros_is_13_at_a_leader() {
    let mut bench = BENCH;
    bench.start(1, 0x07);
    assert_eq!(bench.order(0), 3);
    assert_eq!(bench.timeout(), 0);
    assert_eq!(bench.order(0), 3);
    let mut bench = elected();
    let before = bench.clone();
    assert_eq!(bench.order(0), 13);
    assert!(bench == before);
    for order in [1, 1 << 56, 1 << 63] {
        assert_eq!(bench.order(order), 0);
    }
}

/// In frames zeros are an order like another.
#[test]
fn an_append_with_zeros_is_taken() {
    let mut bench = follower(1);
    let entry = "00000004 0000000000000000";
    let append = format!("01 03 02 01 00000004 0003 00000002 0004 01 {entry}");
    assert_eq!(bench.receive(&append), 0);
    let line = format!("01 10 01 00000004 00 0003 01 {entry}");
    assert_eq!(
        bench.written(),
        writes(&[&line], &["01 04 01 02 00000004 01 0004"])
    );
    assert_eq!(
        (bench.log(), bench.handed_out()),
        (&[1, 1, 2, 4][..], (0, 4))
    );
}

#[test]
fn a_frame_with_a_digit_in_upper_case_is_1() {
    let mut bench = elected();
    let before = bench.clone();
    assert_eq!(bench.receive("01 02 02 01 0000000A 01"), 1);
    assert!(bench == before);
    assert_eq!(bench.receive("01 02 02 01 0000000a 01"), 0);
    assert_eq!(bench.numbers[TERM], 10);
}

/// Yes comes from box 2 on, one after the other, until the box leads.
#[test]
fn majorities() {
    for (mask, votes) in [(0x07, 0x03), (0x0f, 0x07), (0x7f, 0x0f_u8)] {
        let mut bench = BENCH;
        bench.start(1, mask);
        assert_eq!(bench.timeout(), 0);
        for from in 2..=votes.count_ones() {
            assert_eq!(bench.numbers[ROLE], CANDIDATE);
            assert_eq!(bench.receive(&format!("01 02 0{from} 01 00000001 01")), 0);
        }
        assert_eq!(bench.numbers[ROLE], LEADER);
    }
}

#[test]
fn newer_logs() {
    for (asker, own, yes) in [
        ("0003 00000002", (5, 1), 1),
        ("0004 00000002", (5, 2), 0),
        ("0005 00000002", (5, 2), 1),
        ("0009 00000001", (1, 2), 0),
    ] {
        let (last, last_term) = own;
        let mut bench = Bench::with_log(0x07, 4, &vec![last_term; last]);
        assert_eq!(bench.receive(&format!("01 01 02 01 00000004 {asker}")), 0);
        // A yes sets vote, which is stored.
        let line = format!("01 10 01 00000004 02 000{last} 00");
        let answer = format!("01 02 01 02 00000004 0{yes}");
        assert_eq!(bench.written(), writes(&[&*line][..yes], &[&answer]));
    }
}

/// The follower in term 4 with log terms 1, 1, 2, and the append from index 1
/// with one entry.
fn follower(commit: u64) -> Bench {
    let mut bench = Bench::with_log(0x07, 4, &[1, 1, 2]);
    bench.numbers[COMMIT] = commit;
    bench
}

fn append(entry_term: u8, commit: u8) -> String {
    format!(
        "01 03 02 01 00000004 0001 00000001 000{commit} 01 0000000{entry_term} 0123456789abcdef"
    )
}

const YES_TO_2: &str = "01 04 01 02 00000004 01 0002";

#[test]
fn an_append_that_is_there_already() {
    let mut bench = follower(1);
    assert_eq!(bench.receive(&append(1, 0)), 0);
    assert_eq!(bench.log(), [1, 1, 2]);
    assert_eq!(bench.orders, BENCH.orders);
    assert_eq!(bench.written(), writes(&[], &[YES_TO_2]));
    assert_eq!(bench.handed_out(), (0, 1));
}

#[test]
fn an_append_that_cuts() {
    let mut bench = follower(1);
    assert_eq!(bench.receive(&append(3, 0)), 0);
    assert_eq!(bench.log(), [1, 3]);
    assert_eq!(bench.orders[1], 0x0123456789abcdef);
    let line = "01 10 01 00000004 00 0001 01 00000003 0123456789abcdef";
    assert_eq!(bench.written(), writes(&[line], &[YES_TO_2]));
}

#[test]
fn an_append_that_would_cut_at_commit_is_7() {
    let mut bench = follower(2);
    let before = bench.clone();
    assert_eq!(bench.receive(&append(3, 0)), 7);
    assert!(bench == before);
}

#[test]
fn commit_stops_where_the_append_ends() {
    let mut bench = follower(1);
    assert_eq!(bench.receive(&append(1, 9)), 0);
    assert_eq!(bench.handed_out(), (0, 2));
    assert_eq!(bench.log(), [1, 1, 2]);
    assert_eq!(bench.numbers[ROLE], FOLLOWER);
}

#[test]
fn a_leader_commits_by_its_own_term_only() {
    for (terms, commit) in [(&[1, 2][..], 1), (&[1, 2, 4], 3)] {
        let last = terms.len() as u64;
        let mut bench = Bench::with_log(0x1f, 4, terms);
        bench.numbers[VOTE] = 1;
        bench.numbers[ROLE] = LEADER;
        bench.numbers[COMMIT] = 1;
        bench.numbers[NEXT + 1..NEXT + 5].fill(last + 1);
        for from in [2, 3] {
            assert_eq!(bench.handed_out(), (0, 1));
            let yes = format!("01 04 0{from} 01 00000004 01 000{last}");
            assert_eq!(bench.receive(&yes), 0);
            assert_eq!(bench.written(), writes(&[], &[]));
        }
        assert_eq!(bench.handed_out(), (0, commit));
    }
}

const JOURNAL: &[u8; 32] = b"01110107\n0110010000000101000000\n";

/// What box 1 wrote at its start and at the timeout.
#[test]
fn a_journal_is_opened() {
    let mut bench = BENCH;
    assert_eq!(bench.open(JOURNAL), 0);
    assert_eq!(bench.numbers[..5], [1, 0x07, 1, 1, 0]);
    assert_eq!(bench.numbers[5..], [0; 17]);
    assert_eq!(bench.sizes, [32, 0]);
}

#[test]
fn a_journal_cut_inside_its_head_is_11() {
    for cut in 0..9 {
        let mut bench = BENCH;
        assert_eq!(bench.open(&JOURNAL[..cut]), 11);
        assert!(bench == BENCH);
    }
}

#[test]
fn mask_00_is_12() {
    let mut bench = BENCH;
    assert_eq!(bench.start(1, 0x00), 12);
}

#[test]
fn a_log_of_255_takes_an_order_and_one_of_256_answers_4() {
    let mut bench = BENCH;
    bench.start(1, 0x01);
    assert_eq!(bench.timeout(), 0);
    // The blank is the first entry.
    for order in 1..=255 {
        assert_eq!(bench.numbers[LAST], order);
        assert_eq!(bench.order(order), 0);
    }
    assert_eq!(bench.order(256), 4);
}

/// There and back, against Rust's own, between bytes that have to stay.
fn check_order(bytes: [u8; 8]) {
    let order = library::order_of(&bytes);
    assert_eq!(order, u64::from_be_bytes(bytes));
    let mut lent = [0xa5; 24];
    library::put_order(order, (&mut lent[8..16]).try_into().expect("eight"));
    assert_eq!((&lent[..8], &lent[16..]), (&[0xa5; 8][..], &[0xa5; 8][..]));
    assert_eq!(lent[8..16], order.to_be_bytes());
    assert_eq!(lent[8..16], bytes);
}

#[test]
fn an_order_is_its_8_bytes_as_they_stand() {
    for place in 0..8 {
        for byte in 0..=255 {
            for rest in [0x00, 0x5a, 0xff] {
                let mut bytes = [rest; 8];
                bytes[place] = byte;
                check_order(bytes);
            }
        }
    }
    let mut r = Random::seeded(1);
    for _ in 0..1_000_000 {
        check_order(r.next().to_ne_bytes());
    }

    let mut bench = elected();
    let order = library::order_of(b"\x01\x23\x45\x67\x89\xab\xcd\xef");
    assert_eq!(bench.order(order), 0);
    let line = "01 10 01 00000001 01 0001 01 00000001 01 23 45 67 89 ab cd ef";
    assert_eq!(bench.written().0, lines(&[line]));
}
