//! A frame read or written by both sides, and there and back again.

use support::comparison::Different;
use support::counts::Counts;
use support::guarded::{hex, BOTH, GUARD};
use support::library::{frame_read, frame_write};
use support::random::Random;
use twin::flat_frame::{self, FIELDS};

use crate::drawn_fields::{Fields, KIND};
use crate::drawn_texts::{length_of, spelled};

/// What to print at a difference; the answers with all that they may touch.
pub struct Difference {
    what: &'static str,
    input: String,
    ours: String,
    twin: String,
}

impl Difference {
    pub fn print(&self) -> Different {
        println!("difference: {}", self.what);
        println!("input: {}", self.input);
        println!("ours: {}", self.ours);
        println!("twin: {}", self.twin);
        Different
    }
}

fn shown(bytes: &[u8]) -> String {
    bytes.escape_ascii().to_string()
}

/// Both sides agree and what comes back is not what went in.
fn not_back(what: &'static str, input: String, came: String, wanted: String) -> Difference {
    Difference {
        what,
        input,
        ours: came,
        twin: wanted,
    }
}

/// Both read; the fields stand in a pattern that shows what is touched. Gives
/// the answer and the fields.
fn compare_read(
    bytes: &[u8],
    r: &mut Random,
    counts: &mut Counts,
) -> Result<Option<Fields>, Difference> {
    // What lies past the text would make a frame of it if it were read.
    let mut lent = bytes.to_vec();
    lent.extend_from_slice(r.of(&[b"\n\n\n\n\n\n\n\n", b"00000000", b"01\n01\n01"]));
    let before = lent.clone();
    let mut ours = [0; FIELDS + BOTH];
    ours.fill_with(|| r.next());
    let mut twin = ours;
    let place = GUARD..GUARD + FIELDS;

    let our_answer = unsafe {
        let fields = ours.as_mut_ptr().add(GUARD);
        frame_read(lent.as_mut_ptr(), bytes.len(), fields)
    };
    let twin_fields: &mut Fields = (&mut twin[place.clone()]).try_into().expect("17 fields");
    let twin_answer = flat_frame::read(bytes, twin_fields);

    if our_answer != twin_answer || ours != twin || lent != before {
        return Err(Difference {
            what: "read",
            input: shown(bytes),
            ours: format!("{our_answer} {} text {}", hex(&ours), shown(&lent)),
            twin: format!("{twin_answer} {} text {}", hex(&twin), shown(&before)),
        });
    }
    let fields: Fields = ours[place].try_into().expect("17 fields");
    if our_answer != 0 {
        counts.add("read_no_frame");
        return Ok(None);
    }
    counts.add_of("read_kind", fields[KIND]);
    Ok(Some(fields))
}

/// Both write into rooms of this length; all of the room and what lies around
/// it is compared. Gives the room if the frame was written.
fn compare_write(
    f: &Fields,
    length: usize,
    r: &mut Random,
    counts: &mut Counts,
) -> Result<Option<Vec<u8>>, Difference> {
    let mut ours: Vec<u8> = (0..length + BOTH).map(|_| r.next() as u8).collect();
    let mut twin = ours.clone();
    let place = GUARD..GUARD + length;
    let mut lent = *f;

    let our_answer = unsafe {
        let room = ours.as_mut_ptr().add(GUARD);
        frame_write(lent.as_mut_ptr(), room, length)
    };
    let twin_answer = flat_frame::write(f, &mut twin[place.clone()]);

    if our_answer != twin_answer || ours != twin || lent != *f {
        return Err(Difference {
            what: "write",
            input: format!("{} (room of {length})", hex(f)),
            ours: format!("{our_answer} {} fields {}", shown(&ours), hex(&lent)),
            twin: format!("{twin_answer} {} fields {}", shown(&twin), hex(f)),
        });
    }
    counts.add_of("write", our_answer.into());
    Ok((our_answer == 0).then(|| ours[place].to_vec()))
}

/// In rooms around the frame's length, and back; then the fields' digits as they are.
pub fn compare_fields(f: &Fields, r: &mut Random, counts: &mut Counts) -> Result<(), Difference> {
    let length = length_of(f);
    for room in [
        length,
        length - 1,
        0,
        length + 1 + r.below(40),
        r.below(length),
    ] {
        let Some(text) = compare_write(f, room, r, counts)? else {
            continue;
        };
        let back = compare_read(&text[..length], r, counts)?;
        if back != Some(*f) {
            let came = back.map_or("1".into(), |back| hex(&back));
            return Err(not_back(
                "read of what was written",
                shown(&text[..length]),
                came,
                hex(f),
            ));
        }
        // With the rest of a longer room it is no frame.
        compare_read(&text, r, counts)?;
    }
    compare_read(&spelled(f), r, counts)?;
    Ok(())
}

/// Read, and where that gives a frame, written into rooms around its length.
pub fn compare_bytes(bytes: &[u8], r: &mut Random, counts: &mut Counts) -> Result<(), Difference> {
    let Some(f) = compare_read(bytes, r, counts)? else {
        return Ok(());
    };
    for room in [
        bytes.len(),
        bytes.len() - 1,
        0,
        bytes.len() + 1 + r.below(40),
    ] {
        let text = compare_write(&f, room, r, counts)?;
        let fits = room >= bytes.len();
        if text.as_ref().map(|text| &text[..bytes.len()]) != fits.then_some(bytes) {
            let came = text.map_or("refused".into(), |text| shown(&text));
            return Err(not_back(
                "write of what was read",
                format!("{} (room of {room})", hex(&f)),
                came,
                shown(bytes),
            ));
        }
    }
    Ok(())
}
