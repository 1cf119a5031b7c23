//! Lines in and answers out, however many and however long, in fixed memory:
//! large blocks both ways, as many lines for one call of the system as there are.

use std::io::{BufRead, ErrorKind, Read, Result, Write};

use crate::frames::LONGEST_TEXT;

/// Bytes asked for at once, and bytes gathered before they are written.
pub const BLOCK: usize = 0x1_0000;

/// The longest frame, which is longer than any journal line, with its line feed:
/// of a line that is longer nothing has to be kept.
pub const LONGEST_LINE: usize = LONGEST_TEXT;

/// What was read; the part from `from` to `end` is not taken yet.
pub struct Lines<R> {
    input: R,
    block: Vec<u8>,
    from: usize,
    end: usize,
    /// Bytes of the line at hand were dropped.
    dropped: bool,
}

/// A line with its line feed, or one that is longer than any frame.
#[derive(Debug, PartialEq, Eq)]
pub enum Line<'a> {
    Whole(&'a [u8]),
    TooLong,
}

impl<R: Read> Lines<R> {
    pub fn of(input: R) -> Lines<R> {
        Lines {
            input,
            block: vec![0; BLOCK],
            from: 0,
            end: 0,
            dropped: false,
        }
    }

    /// The next line among the bytes that were read; None where its line feed is
    /// still to come.
    #[inline(always)]
    pub fn next(&mut self) -> Option<Line<'_>> {
        let bytes = &self.block[self.from..self.end];
        // The standard library's search takes several bytes at a time.
        let length = (&mut &*bytes).skip_until(b'\n').expect("bytes in memory");
        let line = &bytes[..length];
        if !line.ends_with(b"\n") {
            return None;
        }
        self.from += length;
        let too_long = std::mem::take(&mut self.dropped) || length > LONGEST_LINE;
        Some(match too_long {
            true => Line::TooLong,
            false => Line::Whole(line),
        })
    }

    /// Waits for bytes, after the start of a line that is there already; false at
    /// the end. All answers have to be out by now: whoever sends may wait for them.
    pub fn more(&mut self) -> Result<bool> {
        let held = self.end - self.from;
        self.dropped |= held >= LONGEST_LINE;
        let kept = if self.dropped { 0 } else { held };
        self.block.copy_within(self.end - kept..self.end, 0);
        (self.from, self.end) = (0, kept);
        loop {
            match self.input.read(&mut self.block[kept..]) {
                Ok(bytes) => {
                    self.end += bytes;
                    return Ok(bytes > 0);
                }
                Err(error) if error.kind() == ErrorKind::Interrupted => {}
                Err(error) => return Err(error),
            }
        }
    }
}

/// What is said, in blocks.
pub struct Said<W> {
    output: W,
    block: Vec<u8>,
    length: usize,
}

impl<W: Write> Said<W> {
    pub fn to(output: W) -> Said<W> {
        Said {
            output,
            block: vec![0; BLOCK],
            length: 0,
        }
    }

    /// Room for so many bytes; those that are written there are `said` next.
    #[inline(always)]
    pub fn room(&mut self, bytes: usize) -> Result<&mut [u8]> {
        if BLOCK - self.length < bytes {
            self.send()?;
        }
        Ok(&mut self.block[self.length..])
    }

    #[inline(always)]
    pub fn said(&mut self, bytes: usize) {
        self.length += bytes;
    }

    pub fn send(&mut self) -> Result<()> {
        let length = std::mem::take(&mut self.length);
        self.output.write_all(&self.block[..length])?;
        self.output.flush()
    }
}

#[cfg(test)]
mod checks {
    use super::*;

    /// Gives so many bytes at a time, and once in a while an interruption.
    struct Pieces<'a> {
        left: &'a [u8],
        size: usize,
        interrupted: bool,
    }

    impl Read for Pieces<'_> {
        fn read(&mut self, room: &mut [u8]) -> Result<usize> {
            self.interrupted = !self.interrupted;
            if self.interrupted {
                return Err(ErrorKind::Interrupted.into());
            }
            let size = self.size.min(self.left.len()).min(room.len());
            let (now, later) = self.left.split_at(size);
            room[..size].copy_from_slice(now);
            self.left = later;
            Ok(size)
        }
    }

    /// The lines' texts, or None for one that is too long.
    fn lines(text: &[u8], size: usize) -> Vec<Option<Vec<u8>>> {
        let mut lines = Lines::of(Pieces {
            left: text,
            size,
            interrupted: false,
        });
        let mut all = Vec::new();
        while lines.more().expect("bytes") {
            while let Some(line) = lines.next() {
                all.push(match line {
                    Line::Whole(line) => Some(line.to_vec()),
                    Line::TooLong => None,
                });
            }
        }
        all
    }

    #[test]
    fn lines_in_pieces_of_any_size() {
        let long = |length: usize| [vec![b'0'; length - 1], b"\n".to_vec()].concat();
        let parts = [
            b"t\n".to_vec(),
            b"\n".to_vec(),
            long(130),
            long(131),
            b"p\n".to_vec(),
            long(132),
            b"\0 \r\n".to_vec(),
            long(BLOCK - 1),
            long(BLOCK),
            long(BLOCK + 1),
            b"\n".to_vec(),
            long(3 * BLOCK),
            b"last\n".to_vec(),
        ];
        let fits = |part: &Vec<u8>| (part.len() <= LONGEST_LINE).then(|| part.clone());
        let expected: Vec<Option<Vec<u8>>> = parts.iter().map(fits).collect();
        for tail in [&b""[..], b"t", &[b'0'; 500]] {
            let text = [parts.concat(), tail.to_vec()].concat();
            for size in [1, 2, 7, 130, 131, 132, 4096, BLOCK, usize::MAX] {
                assert!(lines(&text, size) == expected, "{size}");
            }
        }
        assert!(lines(b"", 1).is_empty() && lines(b"no line", 1).is_empty());
    }

    #[test]
    fn what_is_said_comes_out_in_order() {
        let mut output = Vec::new();
        let mut said = Said::to(&mut output);
        let mut expected = Vec::new();
        for number in 0..100_000_u32 {
            let text = format!("{number}\n");
            said.room(20).expect("room")[..text.len()].copy_from_slice(text.as_bytes());
            said.said(text.len());
            expected.extend(text.into_bytes());
        }
        said.send().expect("memory");
        assert!(output == expected);
    }
}
