//! How an input is cut into pieces, and after which of them an answer is awaited.

use support::counts::Counts;
use support::random::Random;
use twin::frames;
use twin::lines::LONGEST_LINE;

use crate::expected_answers::Session;
use crate::program_run::{Piece, Then};

/// A piece that is awaited costs some 20 microseconds, and much more on a busy machine.
const MOST_PIECES: usize = 600;

pub const WANTED: [&str; 11] = [
    "at_once",
    "in_pieces",
    "line_by_line",
    "piece_of_1",
    "piece_of_several_lines",
    "piece_ends_in_head",
    "piece_ends_in_line",
    "piece_ends_before_line_feed",
    "piece_ends_in_long_line",
    "piece_awaited_in_line",
    "piece_before_good_end",
];

/// Each line by itself, and each answer awaited.
pub fn line_by_line(session: &Session) -> Vec<Piece> {
    let ends = session.ends.iter();
    let mut pieces: Vec<Piece> = ends
        .map(|&(end, said)| Piece {
            end,
            then: Then::Await(said),
        })
        .collect();
    pieces.push(Piece {
        end: session.input.len(),
        then: Then::Nothing,
    });
    pieces
}

/// Ends of pieces of odd sizes, most of them no end of a line.
fn ends(r: &mut Random, length: usize) -> Vec<usize> {
    let most = r.of(&[2, 7, 40, 500, 5000, 30_000]);
    let most = most.max(2 * length / MOST_PIECES);
    let mut ends = vec![0];
    while ends[ends.len() - 1] < length {
        let size = match r.one_in(8) {
            true => 1,
            false => r.between(1, most as u64) as usize,
        };
        ends.push((ends[ends.len() - 1] + size).min(length));
    }
    ends.split_off(1)
}

pub fn any_pieces(r: &mut Random, input: &[u8]) -> Vec<Piece> {
    let ends = ends(r, input.len()).into_iter();
    let then = Then::Nothing;
    ends.map(|end| Piece { end, then }).collect()
}

/// Where the end of a line that is too long would be a good line.
fn good_ends(session: &Session) -> Vec<usize> {
    let lines = session.ends.windows(2).map(|pair| (pair[0].0, pair[1].0));
    let long = lines.filter(|(start, end)| end - start > LONGEST_LINE);
    let good_end = |(start, end): (usize, usize)| {
        let line = &session.input[start..end];
        let suffixes = (line.len() - LONGEST_LINE..line.len()).rev();
        let good = suffixes.clone().find(|&from| is_good(&line[from..]))?;
        Some(start + good)
    };
    long.filter_map(good_end).collect()
}

fn is_good(line: &[u8]) -> bool {
    [&b"t\n"[..], b"p\n"].contains(&line)
        || line[0] == b'o' && line.len() == 18
        || frames::read(line).is_some()
}

/// What the whole lines of a piece say is often awaited, though a part of the next
/// line has come with them.
pub fn pieces(r: &mut Random, session: &Session) -> Vec<Piece> {
    let good_ends = good_ends(session);
    let mut ends = ends(r, session.input.len());
    ends.extend(&good_ends);
    ends.sort_unstable();
    ends.dedup();
    let piece = |end| {
        let lines = session.ends.partition_point(|&(line, _)| line <= end);
        let said = match lines {
            0 => 0,
            _ => session.ends[lines - 1].1,
        };
        let then = match () {
            _ if good_ends.binary_search(&end).is_ok() => Then::Pause,
            _ if r.one_in(4) => Then::Await(said),
            _ => Then::Nothing,
        };
        Piece { end, then }
    };
    ends.into_iter().map(piece).collect()
}

pub fn count(session: &Session, pieces: &[Piece], counts: &mut Counts) {
    let (head, _) = session.ends[0];
    let mut start = 0;
    let mut lines = 0;
    for piece in pieces {
        let ended = session.ends[lines..].partition_point(|&(end, _)| end <= piece.end);
        lines += ended;
        let line = match lines {
            0 => 0,
            _ => session.ends[lines - 1].0,
        };
        let inside = piece.end > line;
        let next = session.ends.get(lines);
        let awaited = matches!(piece.then, Then::Await(_));
        counts.add_each(&[
            (piece.end == start + 1, "piece_of_1"),
            (ended > 1, "piece_of_several_lines"),
            (piece.end < head, "piece_ends_in_head"),
            (inside && lines > 0, "piece_ends_in_line"),
            (
                next.is_some_and(|&(end, _)| end == piece.end + 1),
                "piece_ends_before_line_feed",
            ),
            (
                piece.end - line > 4096 && next.is_some(),
                "piece_ends_in_long_line",
            ),
            (inside && ended > 0 && awaited, "piece_awaited_in_line"),
            (matches!(piece.then, Then::Pause), "piece_before_good_end"),
        ]);
        start = piece.end;
    }
}
