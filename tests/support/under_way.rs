//! The frames that boxes have sent each other: some are lost, repeated or overtaken,
//! and one box may be cut off.

use crate::random::Random;

pub struct UnderWay {
    /// Sent and not yet lost, the oldest first.
    frames: Vec<Vec<u8>>,
    most: usize,
    /// The number of a box that nothing comes from or goes to, or 0.
    pub cut_off: u64,
}

impl UnderWay {
    /// Of more than so many, some are lost.
    pub fn at_most(most: usize) -> UnderWay {
        UnderWay {
            frames: Vec::new(),
            most,
            cut_off: 0,
        }
    }

    pub fn send(&mut self, frames: Vec<Vec<u8>>, r: &mut Random) {
        self.frames.extend(frames);
        while self.frames.len() > self.most {
            self.frames.remove(r.below(self.most));
        }
    }

    /// The oldest frame or any, which may come again. None where nothing is under
    /// way.
    pub fn next(&mut self, r: &mut Random) -> Option<Vec<u8>> {
        if self.frames.is_empty() {
            return None;
        }
        let which = match r.one_in(2) {
            true => 0,
            false => r.below(self.frames.len()),
        };
        Some(match r.one_in(8) {
            true => self.frames[which].clone(),
            false => self.frames.remove(which),
        })
    }

    /// The box that the frame is for, unless it is lost between here and there.
    pub fn reaches(&self, frame: &[u8]) -> Option<u64> {
        let [from, to] = [frame[5], frame[7]].map(|digit| u64::from(digit - b'0'));
        (![from, to].contains(&self.cut_off)).then_some(to)
    }
}
