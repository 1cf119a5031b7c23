//! A journal is opened: the record that it stores, and how many of its bytes count.

use crate::journal::{head_of, Line};
use crate::record::{fresh, term_at, Node, Orders, Terms, LONGEST_LOG};

#[derive(Clone, Copy, Debug, PartialEq, Eq)]
pub enum Refusal {
    NoHead,
    /// The first such line's number, the head being 1.
    BadLine(u64),
}

/// The record after a restart, and the bytes up to and with the last line feed.
pub type Opened = Result<(Node, usize), Refusal>;

/// One whole line over the record so far: the next record, a restart's, or None
/// with the log untouched. Of the record nothing is known but that its numbers fit.
pub fn replay(node: Node, bytes: &[u8], terms: &mut Terms, orders: &mut Orders) -> Option<Node> {
    let line = Line::read(bytes)?;
    // Whether it fits comes first: kept is a place in the log then.
    if !(line.fits(&node) && line.follows(&node) && line.in_order(term_at(terms, line.kept))) {
        return None;
    }
    let kept = usize::from(line.kept);
    for (place, entry) in (kept..).zip(line.entries()) {
        terms[place] = entry.term;
        orders[place] = u64::from_be_bytes(entry.order);
    }
    Some(Node {
        term: line.term,
        vote: line.vote,
        last: line.kept + u16::from(line.count),
        ..fresh(node.me, node.members)
    })
}

/// On a refusal the log is as it was, and past the last entry always.
pub fn open(me: u8, text: &[u8], terms: &mut Terms, orders: &mut Orders) -> Opened {
    let last_line_feed = text.iter().rposition(|&byte| byte == b'\n');
    let whole = last_line_feed.map_or(0, |place| place + 1);
    let mut lines = text[..whole].split_inclusive(|&byte| byte == b'\n');
    let first = lines.next().ok_or(Refusal::NoHead)?;
    let mut node = head_of(me, first).ok_or(Refusal::NoHead)?;

    // What a later line cuts, or a bad one follows, must not be seen.
    let mut log: (Terms, Orders) = ([0; LONGEST_LOG as usize], [0; LONGEST_LOG as usize]);
    for (line, number) in lines.zip(2..) {
        let next = replay(node, line, &mut log.0, &mut log.1);
        node = next.ok_or(Refusal::BadLine(number))?;
    }
    let last = usize::from(node.last);
    terms[..last].copy_from_slice(&log.0[..last]);
    orders[..last].copy_from_slice(&log.1[..last]);
    Ok((node, whole))
}

#[cfg(test)]
mod checks {
    use super::*;
    use crate::record::CANDIDATE;
    use support::text::lines as spelled;

    const HEAD: &str = "01 11 01 07";

    fn text(lines: &[&str]) -> Vec<u8> {
        spelled(lines).into_bytes()
    }

    /// An order for each entry, which tells where it came from.
    fn entries(terms: &[u32], from: u64) -> String {
        let entries = terms.iter().zip(from..);
        let spelled = entries.map(|(term, order)| format!(" {term:08x} {order:016x}"));
        spelled.collect()
    }

    fn line(term: u32, vote: u8, kept: u16, terms: &[u32], from: u64) -> String {
        let entries = entries(terms, from);
        format!(
            "01 10 01 {term:08x} {vote:02x} {kept:04x} {:02x}{entries}",
            terms.len()
        )
    }

    /// Box 1's journal of these lines after the head: the record, and its log's
    /// terms and orders. A refusal leaves the log alone.
    fn opened(lines: &[String]) -> Result<(Node, Vec<u32>, Vec<u64>), Refusal> {
        let lines: Vec<&str> = lines.iter().map(String::as_str).collect();
        let bytes = text(&[&[HEAD], &lines[..]].concat());
        let (mut terms, mut orders) = ([77; 256], [88; 256]);
        let (node, whole) = open(1, &bytes, &mut terms, &mut orders).inspect_err(|_| {
            assert!(terms == [77; 256] && orders == [88; 256]);
        })?;
        assert_eq!(whole, bytes.len());
        let last = usize::from(node.last);
        assert!(terms[last..].iter().all(|&term| term == 77));
        assert!(orders[last..].iter().all(|&order| order == 88));
        Ok((node, terms[..last].to_vec(), orders[..last].to_vec()))
    }

    fn bad(lines: &[String], number: u64) {
        assert_eq!(opened(lines), Err(Refusal::BadLine(number)));
        let good = opened(&lines[..number as usize - 2]);
        assert!(good.is_ok(), "not the first bad line");
    }

    fn open_bytes(me: u8, bytes: &[u8]) -> Result<usize, Refusal> {
        let opened = open(me, bytes, &mut [0; 256], &mut [0; 256]);
        opened.map(|(_, whole)| whole)
    }

    #[test]
    fn the_journal_of_01s_reading() {
        let bytes = b"01110107\n0110010000000101000000\n";
        let (mut terms, mut orders) = ([5; 256], [6; 256]);
        let (node, whole) = open(1, bytes, &mut terms, &mut orders).expect("a journal");
        assert_eq!(whole, 32);
        let stored = Node {
            term: 1,
            vote: 1,
            ..fresh(1, 0x07)
        };
        assert_eq!(node, stored);
        assert_eq!((terms, orders), ([5; 256], [6; 256]));
    }

    #[test]
    fn cut_inside_its_head_and_after() {
        let bytes = b"01110107\n0110010000000101000000\n";
        for cut in 0..9 {
            assert_eq!(open_bytes(1, &bytes[..cut]), Err(Refusal::NoHead));
        }
        for cut in 9..32 {
            assert_eq!(open_bytes(1, &bytes[..cut]), Ok(9));
        }
        assert_eq!(open_bytes(1, bytes), Ok(32));
        assert_eq!(open_bytes(1, &[&bytes[..], b"\r 01"].concat()), Ok(32));
    }

    #[test]
    fn heads() {
        assert_eq!(open_bytes(1, b"01110101\n"), Ok(9));
        assert_eq!(open_bytes(7, b"0111077f\n"), Ok(9));
        for (me, head) in [
            (2, "01110107"),
            (1, "01110100"),
            (1, "01110187"),
            (1, "01110106"),
            (0, "01110007"),
            (8, "01110880"),
            (8, "011108ff"),
            (255, "0111ffff"),
            (1, "02110107"),
            (1, "01100107"),
            (1, "0111017F"),
            (1, "011101070"),
            (1, "0111010700"),
            (1, "01110107\r"),
            (1, "011101"),
            (1, ""),
        ] {
            let bytes = text(&[head, "no line"]);
            assert_eq!(open_bytes(me, &bytes), Err(Refusal::NoHead), "{head}");
        }
    }

    #[test]
    fn terms_are_at_least_1_and_do_not_fall() {
        bad(&[line(0, 0, 0, &[], 0)], 2);
        bad(&[line(3, 0, 0, &[], 0), line(2, 0, 0, &[], 0)], 3);
        let (node, ..) = opened(&[line(3, 1, 0, &[], 0), line(u32::MAX, 0, 0, &[], 0)]).unwrap();
        assert_eq!((node.term, node.vote), (u32::MAX, 0));
    }

    #[test]
    fn a_vote_is_0_or_a_member_and_stays() {
        for stranger in [4, 7, 8, 9, 255] {
            bad(&[line(1, stranger, 0, &[], 0)], 2);
        }
        for other in [0, 1, 3] {
            bad(&[line(1, 2, 0, &[], 0), line(1, other, 0, &[], 0)], 3);
        }
        let votes = [(1, 0), (1, 3), (1, 3), (2, 0), (2, 1), (3, 2)];
        let lines = votes.map(|(term, vote)| line(term, vote, 0, &[], 0));
        assert_eq!(opened(&lines).map(|(node, ..)| node.vote), Ok(2));
    }

    #[test]
    fn kept_and_count() {
        let one = line(1, 1, 0, &[1], 10);
        bad(&[one.clone(), line(1, 1, 2, &[], 0)], 3);
        bad(&[one.clone(), line(1, 1, 1, &[1; 5], 0)], 3);
        bad(&[one.clone(), line(1, 1, 0xffff, &[1; 4], 0)], 3);
        let mut lines: Vec<String> = (0..64).map(|n| line(1, 1, 4 * n, &[1; 4], 0)).collect();
        bad(&[&lines[..], &[line(1, 1, 256, &[1], 0)]].concat(), 66);
        bad(&[&lines[..], &[line(1, 1, 253, &[1; 4], 0)]].concat(), 66);
        lines.push(line(1, 1, 252, &[1; 4], 7));
        lines.push(line(1, 1, 256, &[], 0));
        let (node, _, orders) = opened(&lines).expect("a full log");
        assert_eq!((node.last, &orders[252..]), (256, &[7, 8, 9, 10][..]));
    }

    #[test]
    fn entry_terms() {
        bad(&[line(5, 0, 0, &[0], 0)], 2);
        bad(&[line(5, 0, 0, &[2, 1], 0)], 2);
        bad(&[line(5, 0, 0, &[5, 6], 0)], 2);
        bad(&[line(5, 0, 0, &[1, 3], 0), line(5, 0, 2, &[2], 0)], 3);
        let lines = [line(5, 0, 0, &[1, 3], 0), line(5, 0, 1, &[2, 5], 7)];
        let (_, terms, orders) = opened(&lines).expect("a cut");
        assert_eq!((terms, orders), (vec![1, 2, 5], vec![0, 7, 8]));
    }

    #[test]
    fn lines_that_say_little_are_accepted() {
        let first = line(2, 1, 0, &[1, 1, 2], 10);
        for (second, log) in [
            (line(2, 1, 3, &[], 0), vec![10, 11, 12]),
            (line(2, 1, 1, &[1, 2], 11), vec![10, 11, 12]),
            (line(2, 1, 1, &[1], 11), vec![10, 11]),
            (line(2, 1, 1, &[], 0), vec![10]),
            (line(2, 1, 0, &[], 0), vec![]),
        ] {
            let (_, _, orders) = opened(&[first.clone(), second]).expect("accepted");
            assert_eq!(orders, log);
        }
    }

    #[test]
    fn what_is_no_line() {
        let good = line(1, 1, 0, &[1], 0);
        assert!(opened(&[good.clone()]).is_ok());
        for other in [
            good.replacen("10", "11", 1),
            good.replacen("01", "02", 1),
            good.replacen("01 10 01", "01 10 02", 1),
            good.replace("00000001", "0000000A"),
            good[..good.len() - 1].into(),
            good[..good.len() - 2].into(),
            good.clone() + "0",
            good.clone() + "00",
            good.clone() + "\r",
            String::new(),
            HEAD.into(),
        ] {
            bad(&[other, "and no line".into()], 2);
        }
    }

    #[test]
    fn what_is_not_stored_is_a_restarts() {
        let candidate = Node {
            role: CANDIDATE,
            votes: 1,
            term: 4,
            vote: 1,
            last: 9,
            commit: 8,
            next: [3; 7],
            ..fresh(1, 0x07)
        };
        let (mut terms, mut orders) = ([4; 256], [0; 256]);
        let bytes = text(&[&line(5, 0, 2, &[5], 42)]);
        let next = Node {
            term: 5,
            vote: 0,
            last: 3,
            ..fresh(1, 0x07)
        };
        let after = replay(candidate, &bytes, &mut terms, &mut orders);
        assert_eq!(after, Some(next));
        assert_eq!((terms[..4].to_vec(), orders[2]), (vec![4, 4, 5, 4], 42));
    }

    /// A record that nobody checked: the line's rules count, and no other.
    #[test]
    fn a_line_over_any_record() {
        let odd = Node {
            term: 3,
            last: 60_000,
            commit: 300,
            ..fresh(200, 0xff)
        };
        let over = |line: String| {
            let bytes = text(&[&line.replacen("01 10 01", "01 10 c8", 1)]);
            replay(odd, &bytes, &mut [9; 256], &mut [0; 256]).map(|node| node.last)
        };
        assert_eq!(over(line(9, 7, 256, &[], 0)), Some(256));
        assert_eq!(over(line(9, 7, 252, &[9; 4], 0)), Some(256));
        assert_eq!(over(line(9, 7, 257, &[], 0)), None);
        assert_eq!(over(line(9, 8, 256, &[], 0)), None);
        // The frame rule has the previous term included.
        assert_eq!(over(line(8, 7, 256, &[], 0)), None);
        assert_eq!(over(line(8, 7, 0, &[], 0)), Some(0));
    }
}
