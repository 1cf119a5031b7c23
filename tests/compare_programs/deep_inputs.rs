//! Sessions that go deep. The box's other members are boxes of the twin that hear
//! what it says and answer, while frames are lost, repeated, delayed and
//! overtaken, a box is cut off for a while, and lines come that are none. Or the
//! box is alone with random frames near its record, of which many cut.

use support::counts::Counts;
use support::random::Random;
use support::received_frames;
use support::records::{self, boxes};
use support::under_way::UnderWay;
use twin::record::LEADER;
use twin::session::Running;

use crate::expected_answers::{answer, started, Session};
use crate::no_lines::{self, order_line};
use crate::trouble::Trouble;

const MOST_FRAMES: usize = 40;

/// What programs read at once.
pub const BLOCKS: [usize; 6] = [4096, 8192, 16_384, 32_768, 65_536, 131_072];

pub const WANTED: [&str; 8] = [
    "park",
    "park_calm",
    "park_cut_off",
    "alone",
    "last_term",
    "last_line_torn",
    "line_across_block",
    "good_end_at_block",
];

struct Park {
    session: Session,
    others: Vec<Running>,
    frames: UnderWay,
    /// Nothing goes wrong, and orders come fast.
    calm: bool,
}

impl Park {
    fn new(r: &mut Random, me: u64, mask: u64) -> Park {
        let others = boxes(mask).into_iter().filter(|&number| number != me);
        Park {
            session: Session::new(me, mask),
            others: others.map(|number| started(number, mask)).collect(),
            frames: UnderWay::at_most(MOST_FRAMES),
            calm: r.one_in(4),
        }
    }

    fn me(&self) -> u8 {
        self.session.running.node.me
    }

    /// The box under test, then the others.
    fn members(&self) -> impl Iterator<Item = &Running> {
        [&self.session.running].into_iter().chain(&self.others)
    }

    fn leaders(&self) -> Vec<u8> {
        let leads = |running: &&Running| running.node.role == LEADER;
        self.members()
            .filter(leads)
            .map(|running| running.node.me)
            .collect()
    }

    /// The box under test half of the time.
    fn any(&self, r: &mut Random) -> u8 {
        match self.others.len() {
            0 => self.me(),
            _ if r.one_in(2) => self.me(),
            others => self.others[r.below(others)].node.me,
        }
    }

    /// A member takes the line, and its frames are on their way.
    fn at(&mut self, number: u8, line: &[u8], r: &mut Random, counts: &mut Counts) {
        let frames = match number == self.me() {
            true => self.session.say(line, counts),
            false => {
                let mut others = self.others.iter_mut();
                let other = others.find(|running| running.node.me == number);
                other.map_or(Vec::new(), |running| answer(running, line).1)
            }
        };
        self.frames.send(frames, r);
    }

    fn event(&mut self, r: &mut Random, counts: &mut Counts) {
        let any = self.any(r);
        let leaders = self.leaders();
        let unheard = !leaders
            .iter()
            .any(|number| u64::from(*number) != self.frames.cut_off);
        let leader = match leaders[..] {
            [] => any,
            _ => r.of(&leaders),
        };
        let order = order_line(r);
        match r.below(240) {
            0 if !self.calm => self.at(any, b"t\n", r, counts),
            1..=20 if unheard => self.at(any, b"t\n", r, counts),
            21 => self.at(any, b"p\n", r, counts),
            22 => self.at(any, &order, r, counts),
            23 => self.at(leader, b"t\n", r, counts),
            24 | 25 if !self.calm => {
                counts.add("park_cut_off");
                self.frames.cut_off = r.of(&[0, 0, any, leader]).into();
            }
            26..=31 if !leaders.is_empty() => self.at(leader, b"p\n", r, counts),
            32..=50 if !leaders.is_empty() => self.at(leader, &order, r, counts),
            51..=140 if self.calm && !leaders.is_empty() => self.at(leader, &order, r, counts),
            _ => self.deliver(r, counts),
        }
    }

    /// A frame that is under way arrives, or is lost.
    fn deliver(&mut self, r: &mut Random, counts: &mut Counts) {
        let Some(frame) = self.frames.next(r) else {
            return;
        };
        if let Some(to) = self.frames.reaches(&frame) {
            self.at(to as u8, &frame, r, counts);
        }
    }
}

/// A frame that nobody sent. Mostly it commits nothing, so that there is something
/// to cut.
fn forged(r: &mut Random, session: &Session) -> Vec<u8> {
    let record = session.record();
    let mut frame = match r.below(400) {
        0 => received_frames::frame(r, &record),
        1..=40 => received_frames::misaddressed(r, &record),
        _ => no_lines::frame(r, &record),
    };
    if frame.starts_with(b"0103") && !r.one_in(20) {
        frame[28..32].copy_from_slice(b"0000");
    }
    frame
}

/// A line that is none: n1, whoever reads it.
fn disturb(r: &mut Random, session: &mut Session, counts: &mut Counts) -> Result<(), Box<Trouble>> {
    let record = session.record();
    let line = match r.below(200) {
        0 => no_lines::long(r, &record, counts),
        1..=12 => no_lines::short(r, &record, counts),
        13..=80 => {
            // Whether this is a frame for all that is left to the twin.
            let bytes = no_lines::damaged(r, &record, counts);
            session.say(&bytes, counts);
            return Ok(());
        }
        _ => no_lines::any(r, &record, counts),
    };
    let &(start, said) = session.ends.last().expect("the head");
    let begun = session.input.len() > start;
    session.say(&line, counts);
    if !begun && &session.output[said..] != b"n1\n" {
        return Err(Trouble::both("took what is no line", session));
    }
    Ok(())
}

/// Where little can happen any more a session ends soon: in the last term, with a
/// full log that is committed, or of a single member, which takes no frame.
fn is_over(r: &mut Random, session: &Session, lines: usize) -> bool {
    let node = &session.running.node;
    let little = node.term == u32::MAX || node.commit == 256 || node.members.count_ones() == 1;
    session.lines() >= lines || little && r.one_in(400)
}

/// So many lines at a box in its park.
pub fn park(r: &mut Random, lines: usize, counts: &mut Counts) -> Result<Session, Box<Trouble>> {
    let (me, mask) = records::membership(r);
    let mut park = Park::new(r, me, mask);
    counts.add_each(&[(true, "park"), (park.calm, "park_calm")]);
    counts.add_of("members", mask.count_ones().into());
    let rarely = r.of(&[8, 40, 200]);
    while !is_over(r, &park.session, lines) {
        match r.below(rarely * 4) {
            0..=3 => disturb(r, &mut park.session, counts)?,
            4 if !park.calm => {
                let frame = forged(r, &park.session);
                let me = park.me();
                park.at(me, &frame, r, counts);
            }
            _ => park.event(r, counts),
        }
    }
    end(r, &mut park.session, counts)?;
    Ok(park.session)
}

/// So many lines at a box that hears random frames.
pub fn alone(r: &mut Random, lines: usize, counts: &mut Counts) -> Result<Session, Box<Trouble>> {
    let (me, mask) = records::membership(r);
    let mut session = Session::new(me, mask);
    counts.add("alone");
    counts.add_of("members", mask.count_ones().into());
    while !is_over(r, &session, lines) {
        let line = match r.below(40) {
            0 => b"t\n".to_vec(),
            1 => b"p\n".to_vec(),
            2..=4 => order_line(r),
            5..=8 => {
                disturb(r, &mut session, counts)?;
                continue;
            }
            _ => forged(r, &session),
        };
        session.say(&line, counts);
    }
    end(r, &mut session, counts)?;
    Ok(session)
}

/// A good line that lies across the end of a block, or the good end of a line too
/// long that begins there, for whoever reads so many bytes at once.
pub fn at_edge(r: &mut Random, counts: &mut Counts) -> Result<Session, Box<Trouble>> {
    let (me, mask) = records::membership(r);
    let mut session = Session::new(me, mask);
    let block = r.of(&BLOCKS);
    counts.add_of("block", block as u64);
    session.say(b"t\n", counts);
    let line = match r.below(4) {
        0 => b"t\n".to_vec(),
        1 => b"p\n".to_vec(),
        2 => order_line(r),
        _ => no_lines::frame(r, &session.record()),
    };
    let left = block - session.input.len();
    if r.one_in(2) {
        counts.add("line_across_block");
        let mut fill = vec![b'#'; left - r.between(0, line.len() as u64) as usize];
        for line in fill.rchunks_mut(100) {
            line[line.len() - 1] = b'\n';
        }
        session.say(&fill, counts);
        session.say(&line, counts);
    } else {
        counts.add("good_end_at_block");
        session.say(&vec![b'0'; left], counts);
        let said = session.output.len();
        session.say(&line, counts);
        if &session.output[said..] != b"n1\n" {
            return Err(Trouble::both("took the end of a line", &session));
        }
    }
    session.say(b"t\n\n", counts);
    Ok(session)
}

/// Often the last term, which no timeout leads out of; and often a last line
/// that has no line feed, which would be taken if it had.
fn end(r: &mut Random, session: &mut Session, counts: &mut Counts) -> Result<(), Box<Trouble>> {
    session.say(b"\n", counts);
    let me = session.running.node.me;
    let others = session.running.node.members & !(1 << (me - 1));
    if others != 0 && r.one_in(2) {
        counts.add("last_term");
        let from = r.of(&boxes(others.into()));
        let request = format!("0101{from:02x}{me:02x}ffffffff000000000000\n");
        session.say(request.as_bytes(), counts);
        let said = session.output.len();
        session.say(b"t\n", counts);
        let leads = session.running.node.role == LEADER;
        if !leads && &session.output[said..] != b"n9\n" {
            return Err(Trouble::both("left the last term", session));
        }
        for _ in 0..r.below(6) {
            disturb(r, session, counts)?;
        }
        session.say(b"\n", counts);
    }
    if r.one_in(2) {
        counts.add("last_line_torn");
        let line = order_line(r);
        let torn = match r.below(4) {
            0 => b"t\n".to_vec(),
            1 => received_frames::frame(r, &session.record()),
            2 => vec![b'0'; r.of(&[131, 65_536, 70_000])],
            _ => line,
        };
        session
            .input
            .extend(torn.strip_suffix(b"\n").unwrap_or(&torn));
    }
    Ok(())
}
