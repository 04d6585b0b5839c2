//! A program as a process: fed, read and watched, so that neither a full pipe
//! nor a program that hangs can hold up the trials.

use crate::feed::{Cut, Feed};
use std::cell::Cell;
use std::fs::File;
use std::io::{self, ErrorKind, Read, Write};
use std::os::fd::OwnedFd;
use std::os::unix::net::{UnixDatagram, UnixStream};
use std::path::{Path, PathBuf};
use std::process::{Child, Command, ExitStatus, Stdio};
use std::sync::mpsc;
use std::thread;
use std::time::{Duration, Instant};

/// How long a program may take over one feed.
const PATIENCE: Duration = Duration::from_secs(20);

/// How often a program that should end is looked at.
const GLANCE: Duration = Duration::from_micros(100);

/// A program, by its path.
#[derive(Clone, Debug)]
pub struct Process {
    path: PathBuf,
    /// Whether it has once failed to end. It is not started again then.
    hung: Cell<bool>,
}

/// Why input cannot be read, or no further.
#[derive(Clone, Copy, Debug)]
pub enum Unreadable {
    /// It is a directory.
    Directory,
    /// The connection is reset behind this text.
    Reset(&'static str),
}

/// Why output cannot be written.
#[derive(Clone, Copy, Debug)]
pub enum Unwritable {
    /// The reading end of the pipe is closed.
    Closed,
    /// The same, and the signal that a write into it raises is ignored.
    ClosedSilently,
    /// The device is full.
    Full,
}

impl Process {
    /// The program at this path.
    pub fn new(path: impl Into<PathBuf>) -> Process {
        Process {
            path: path.into(),
            hung: Cell::new(false),
        }
    }

    /// The program that the environment variable `QUAY_PROGRAM` names.
    pub fn from_environment() -> Option<Process> {
        std::env::var_os("QUAY_PROGRAM").map(Process::new)
    }

    /// Where the program is.
    pub fn path(&self) -> &Path {
        &self.path
    }

    /// Starts the program, feeds it and gives its whole output. It must end by
    /// itself and with the exit status 0.
    pub fn output(&self, feed: &Feed) -> Result<Vec<u8>, String> {
        if self.hung.get() {
            return Err("not started again after it did not end".to_string());
        }
        let run = match feed.cut {
            Cut::EachWrite => self.by_pipe(&feed.pieces),
            Cut::EachRead => self.by_datagrams(&feed.pieces),
        };
        match run {
            Ok((output, status)) if status.success() => Ok(output),
            Ok((_, status)) => Err(format!("the program ended with {status}")),
            Err(error) => {
                self.hung.set(error.kind() == ErrorKind::TimedOut);
                Err(format!("{}: {error}", self.path.display()))
            }
        }
    }

    /// How long the program takes over an input, from its start to its end.
    pub fn time(&self, input: &[u8]) -> Result<Duration, String> {
        let start = Instant::now();
        self.output(&Feed::whole(input))?;
        Ok(start.elapsed())
    }

    /// What the program writes to standard output and says to standard error
    /// when its input cannot be read.
    pub fn end_unread(&self, why: Unreadable) -> io::Result<(String, String)> {
        let input = match why {
            Unreadable::Directory => File::open("/")?.into(),
            Unreadable::Reset(text) => {
                let (mut ours, mut theirs) = UnixStream::pair()?;
                ours.write_all(text.as_bytes())?;
                // An end that is closed with something unread resets the other.
                theirs.write_all(b"unread")?;
                OwnedFd::from(theirs)
            }
        };
        let mut command = Command::new(&self.path);
        let command = command.stdin(input).stdout(Stdio::piped());
        let mut child = command.stderr(Stdio::piped()).spawn()?;
        let (_, said) = last_words(&mut child)?;
        let mut output = String::new();
        let mut pipe = child.stdout.take().expect("a pipe was asked for");
        pipe.read_to_string(&mut output)?;
        Ok((output, said))
    }

    /// How the program ends when its output cannot be written, while its input
    /// goes on, and what it says to standard error.
    pub fn end_unwritten(&self, why: Unwritable) -> io::Result<(ExitStatus, String)> {
        let mut command = match why {
            Unwritable::Closed | Unwritable::Full => Command::new(&self.path),
            Unwritable::ClosedSilently => {
                let mut shell = Command::new("sh");
                shell
                    .args(["-c", "trap '' PIPE; exec \"$0\""])
                    .arg(&self.path);
                shell
            }
        };
        let output = match why {
            Unwritable::Closed | Unwritable::ClosedSilently => Stdio::piped(),
            Unwritable::Full => File::options().write(true).open("/dev/full")?.into(),
        };
        let command = command.stdin(Stdio::piped()).stdout(output);
        let mut child = command.stderr(Stdio::piped()).spawn()?;
        drop(child.stdout.take());
        let mut pipe = child.stdin.take().expect("a pipe was asked for");
        let lines = b"T\n".repeat(10_000);
        thread::scope(|scope| {
            scope.spawn(move || while pipe.write_all(&lines).is_ok() {});
            last_words(&mut child)
        })
    }

    /// Through a pipe: where the reads fall is left to chance.
    fn by_pipe(&self, pieces: &[&[u8]]) -> io::Result<(Vec<u8>, ExitStatus)> {
        let mut child = self.start(Stdio::piped())?;
        let mut pipe = child.stdin.take().expect("a pipe was asked for");
        watch(child, move || {
            pieces.iter().try_for_each(|piece| pipe.write_all(piece))
        })
    }

    /// Through a socket of datagrams: a read gets one of them and no more. An
    /// empty one is the end of the input, and a second one still is.
    fn by_datagrams(&self, pieces: &[&[u8]]) -> io::Result<(Vec<u8>, ExitStatus)> {
        let (ours, theirs) = UnixDatagram::pair()?;
        let child = self.start(OwnedFd::from(theirs).into())?;
        watch(child, move || {
            let mut datagrams = pieces.iter().chain(&[b"" as &[u8]; 2]);
            datagrams.try_for_each(|datagram| ours.send(datagram).map(drop))
        })
    }

    fn start(&self, input: Stdio) -> io::Result<Child> {
        let mut command = Command::new(&self.path);
        command.stdin(input).stdout(Stdio::piped()).spawn()
    }
}

/// Feeds a program and gathers its output side by side, and waits for its end.
fn watch(
    mut child: Child,
    feed: impl FnOnce() -> io::Result<()> + Send,
) -> io::Result<(Vec<u8>, ExitStatus)> {
    let mut pipe = child.stdout.take().expect("a pipe was asked for");
    let (sender, receiver) = mpsc::channel();
    thread::scope(|scope| {
        // A program that ends too early cannot be fed: its output shows that.
        scope.spawn(|| feed().ok());
        scope.spawn(move || {
            let mut output = Vec::new();
            let read = pipe.read_to_end(&mut output).map(|_| output);
            sender.send(read)
        });
        let start = Instant::now();
        let output = receiver.recv_timeout(PATIENCE);
        let status = end_of(&mut child, start)?;
        Ok((output.map_err(|_| no_end())??, status))
    })
}

/// How a program that has just been started ends, and what it has said to
/// standard error then.
fn last_words(child: &mut Child) -> io::Result<(ExitStatus, String)> {
    let status = end_of(child, Instant::now())?;
    let mut said = String::new();
    let mut errors = child.stderr.take().expect("a pipe was asked for");
    errors.read_to_string(&mut said)?;
    Ok((status, said))
}

/// Waits for the end of a program that was started then. One that does not come
/// to it is stopped.
fn end_of(child: &mut Child, start: Instant) -> io::Result<ExitStatus> {
    loop {
        if let Some(status) = child.try_wait()? {
            return Ok(status);
        }
        if start.elapsed() >= PATIENCE {
            child.kill()?;
            child.wait()?;
            return Err(no_end());
        }
        thread::sleep(GLANCE);
    }
}

fn no_end() -> io::Error {
    let seconds = PATIENCE.as_secs();
    io::Error::new(
        ErrorKind::TimedOut,
        format!("it has not ended in {seconds} s"),
    )
}
