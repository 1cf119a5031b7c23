//! A program under test: its input is a file, or comes in pieces through a pipe,
//! where it has to answer each piece before it is sent the next.

use std::fs::File;
use std::io::{ErrorKind, Read, Write};
use std::os::fd::OwnedFd;
use std::os::unix::net::UnixStream;
use std::path::PathBuf;
use std::process::{Child, ChildStdin, Command, ExitStatus, Stdio};
use std::sync::mpsc::{self, Receiver};
use std::time::{Duration, Instant};

/// How long a program may be silent when it is its turn. It is there for those that
/// would be silent for ever.
const PATIENCE: Duration = Duration::from_secs(10);

/// More than any input here is answered with.
const MOST: usize = 1 << 26;

/// Long enough for a program that waits for bytes to take those that are there.
const PAUSE: Duration = Duration::from_millis(1);

/// The end of a piece of the input, and what happens before the next one is sent.
#[derive(Clone, Copy)]
pub struct Piece {
    pub end: usize,
    pub then: Then,
}

#[derive(Clone, Copy)]
pub enum Then {
    Nothing,
    /// So much has to be said.
    Await(usize),
    /// Nothing is to be said, but the two should be read one by one.
    Pause,
}

pub struct Program {
    path: String,
    /// Where the input lies that is read from a file.
    file: PathBuf,
}

/// What the program said until it ended, or until it was silent for too long.
pub struct Heard {
    pub output: Vec<u8>,
    pub fault: Option<String>,
}

impl Program {
    pub fn new(path: &str, file: PathBuf) -> Program {
        Program {
            path: path.into(),
            file,
        }
    }

    /// Keeps an input for whoever looks into it; says where.
    pub fn keep(&self, input: &[u8]) -> String {
        match std::fs::write(&self.file, input) {
            Ok(()) => format!("input in {}", self.file.display()),
            Err(error) => format!("input not kept: {error}"),
        }
    }

    /// The input as a file.
    pub fn at_once(&self, input: &[u8]) -> Heard {
        let file = std::fs::write(&self.file, input).and_then(|()| File::open(&self.file));
        match file {
            Ok(file) => self.run(Stdio::from(file), |_, hearing| hearing.to_the_end(|_| {})),
            Err(error) => Heard::nothing(format!("no file of the input: {error}")),
        }
    }

    /// The input in these pieces, each written by itself.
    pub fn in_pieces(&self, input: &[u8], pieces: &[Piece]) -> Heard {
        self.run(Stdio::piped(), |child, hearing| {
            let pipe = child.stdin.take().expect("a pipe");
            let (tell, told) = mpsc::channel();
            // A thread of its own writes: it would wait for ever for one that never reads.
            std::thread::scope(|scope| {
                scope.spawn(|| feed(pipe, input, pieces, told));
                let heard = hearing.to_the_end(|bytes| {
                    let _ = tell.send(bytes);
                });
                drop(tell);
                if heard.is_err() {
                    let _ = child.kill();
                }
                heard
            })
        })
    }

    fn run(
        &self,
        input: Stdio,
        hear: impl FnOnce(&mut Child, &mut Hearing) -> Result<(), String>,
    ) -> Heard {
        let (child, stream) = match self.spawn(input) {
            Ok(both) => both,
            Err(error) => return Heard::nothing(format!("{}: {error}", self.path)),
        };
        let mut running = Running(child);
        let mut hearing = Hearing {
            stream,
            output: Vec::new(),
        };
        let heard = hear(&mut running.0, &mut hearing);
        let fault = match heard.and_then(|()| running.end()) {
            Ok(status) if status.success() => None,
            Ok(status) => Some(format!("ended with {status}")),
            Err(fault) => Some(fault),
        };
        Heard {
            output: hearing.output,
            fault,
        }
    }

    /// A socket and no pipe for what it says: reading from it can time out.
    fn spawn(&self, input: Stdio) -> std::io::Result<(Child, UnixStream)> {
        let (ours, its) = UnixStream::pair()?;
        ours.set_read_timeout(Some(PATIENCE))?;
        let output = Stdio::from(OwnedFd::from(its));
        let child = Command::new(&self.path)
            .stdin(input)
            .stdout(output)
            .spawn()?;
        Ok((child, ours))
    }
}

impl Heard {
    fn nothing(fault: String) -> Heard {
        Heard {
            output: Vec::new(),
            fault: Some(fault),
        }
    }
}

struct Hearing {
    stream: UnixStream,
    output: Vec<u8>,
}

impl Hearing {
    /// Tells how many bytes were said so far, each time that there are more.
    fn to_the_end(&mut self, tell: impl Fn(usize)) -> Result<(), String> {
        let mut room = [0; 0x1_0000];
        loop {
            match self.stream.read(&mut room) {
                Ok(0) => return Ok(()),
                Ok(_) if self.output.len() > MOST => return Err("does not end".into()),
                Ok(length) => {
                    self.output.extend(&room[..length]);
                    tell(self.output.len());
                }
                Err(error) if error.kind() == ErrorKind::Interrupted => {}
                Err(error) if error.kind() == ErrorKind::WouldBlock => {
                    return Err("silent when it was its turn".into());
                }
                Err(error) => return Err(format!("reading from it: {error}")),
            }
        }
    }
}

/// Writes the pieces one by one, until nobody reads or says any more: a program need
/// not read what it has no answer to.
fn feed(mut pipe: ChildStdin, input: &[u8], pieces: &[Piece], told: Receiver<usize>) {
    let (mut start, mut said) = (0, 0);
    for piece in pieces {
        if pipe.write_all(&input[start..piece.end]).is_err() {
            return;
        }
        start = piece.end;
        match piece.then {
            Then::Nothing => {}
            Then::Pause => std::thread::sleep(PAUSE),
            Then::Await(bytes) => {
                while said < bytes {
                    match told.recv() {
                        Ok(bytes) => said = bytes,
                        Err(_) => return,
                    }
                }
            }
        }
    }
}

/// Ended at the latest when it is dropped.
struct Running(Child);

impl Running {
    fn end(&mut self) -> Result<ExitStatus, String> {
        let start = Instant::now();
        while start.elapsed() < PATIENCE {
            match self.0.try_wait() {
                Ok(Some(status)) => return Ok(status),
                Ok(None) => std::thread::yield_now(),
                Err(error) => return Err(format!("waiting for it: {error}")),
            }
        }
        Err("said all and did not end".into())
    }
}

impl Drop for Running {
    fn drop(&mut self) {
        // Both do nothing to one that has ended.
        let _ = self.0.kill();
        let _ = self.0.wait();
    }
}
