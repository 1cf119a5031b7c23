//! What is printed where the two differ, or agree on what is wrong.

use crate::expected_answers::Session;
use crate::program_run::Heard;

pub struct Trouble {
    lines: Vec<String>,
    pub input: Vec<u8>,
}

/// Of a long text the start.
const PRINTED: usize = 1200;

fn shown(text: &[u8]) -> String {
    let start = &text[..text.len().min(PRINTED)];
    let more = match text.len() - start.len() {
        0 => String::new(),
        more => format!(" and {more} bytes more"),
    };
    format!("{}{more}", start.escape_ascii())
}

impl Trouble {
    fn new(input: &[u8], lines: Vec<String>) -> Box<Trouble> {
        let input = input.to_vec();
        Box::new(Trouble { lines, input })
    }

    pub fn print(&self) {
        for line in &self.lines {
            println!("{line}");
        }
    }

    /// The twin itself is wrong at the session's last line.
    pub fn both(what: &str, session: &Session) -> Box<Trouble> {
        let lines = session.ends.len();
        let &(start, said) = session.ends.get(lines.wrapping_sub(2)).unwrap_or(&(0, 0));
        Trouble::new(
            &session.input,
            vec![
                format!("wrong: the twin {what}"),
                format!("line {lines}: {}", shown(&session.input[start..])),
                format!("said: {}", shown(&session.output[said..])),
            ],
        )
    }

    /// Where the output leaves the expected one: the line it answers, and both.
    pub fn in_session(what: &str, session: &Session, output: &[u8]) -> Box<Trouble> {
        let both = session.output.iter().zip(output);
        let same = both.take_while(|(one, other)| one == other).count();
        let before = session.ends.partition_point(|&(_, said)| said <= same);
        let before = before.min(session.ends.len() - 1);
        let (start, said) = match before {
            0 => (0, 0),
            _ => session.ends[before - 1],
        };
        let (end, said_then) = session.ends[before];
        let line = shown(&session.input[start..end]);
        Trouble::new(
            &session.input,
            vec![
                format!("difference: {what}"),
                format!("line {} of {}: {line}", before + 1, session.ends.len()),
                format!("expected: {}", shown(&session.output[said..said_then])),
                format!("said: {}", shown(&output[said.min(output.len())..])),
            ],
        )
    }
}

/// What the program said to a session, and how it ended.
pub fn compare(manner: &str, session: &Session, heard: Heard) -> Result<(), Box<Trouble>> {
    if heard.output == session.output && heard.fault.is_none() {
        return Ok(());
    }
    let mut trouble = Trouble::in_session(manner, session, &heard.output);
    trouble
        .lines
        .extend(heard.fault.map(|fault| format!("fault: {fault}")));
    Err(trouble)
}

/// The same for a short input of which a whole answer is known.
pub fn compare_short(
    program: &str,
    input: &[u8],
    expected: Option<&[u8]>,
    twin: &[u8],
    heard: Heard,
) -> Result<(), Box<Trouble>> {
    let as_expected = expected.is_none_or(|expected| expected == twin);
    if as_expected && heard.output == twin && heard.fault.is_none() {
        return Ok(());
    }
    let mut lines = vec![
        format!("difference: {program}"),
        format!("input of {} bytes: {}", input.len(), shown(input)),
    ];
    lines.extend(expected.map(|expected| format!("expected: {}", shown(expected))));
    lines.push(format!("the twin: {}", shown(twin)));
    lines.push(format!("said: {}", shown(&heard.output)));
    lines.extend(heard.fault.map(|fault| format!("fault: {fault}")));
    Err(Trouble::new(input, lines))
}
