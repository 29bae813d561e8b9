//! Runs a program and sees what it wrote and how it ended. Every wait has a limit: a program that
//! has not ended by then is killed, and that is told.

use std::ffi::OsStr;
use std::fs::File;
use std::io::Read;
use std::os::unix::process::ExitStatusExt;
use std::path::{Path, PathBuf};
use std::process::{Child, ChildStdin, Command, ExitStatus, Stdio};
use std::sync::mpsc::{self, Receiver, RecvTimeoutError};
use std::sync::{Arc, Mutex, OnceLock};
use std::thread;
use std::time::{Duration, Instant};

use crate::feed::Pieces;

/// For what is done at once, however busy the machine is.
pub const AT_ONCE: Duration = Duration::from_secs(2);
/// For everything else.
const LONG: Duration = Duration::from_secs(20);
/// For the whole run: where many programs have been waited for in vain, the rest fails untried.
const ALL: Duration = Duration::from_secs(300);
static START: OnceLock<Instant> = OnceLock::new();
/// For the rest of what a killed program wrote.
const AFTERWARDS: Duration = Duration::from_secs(1);
const STEP: Duration = Duration::from_millis(1);

/// What stands at a program's standard input.
pub enum Source {
    /// A pipe that gives nothing and does not end.
    Silent,
    File(PathBuf),
    Pieces(Pieces),
}

pub enum End {
    Itself(ExitStatus),
    Late(Duration),
    NotStarted(String),
}

pub struct Seen {
    pub out: Vec<u8>,
    pub err: Vec<u8>,
    pub took: Duration,
    end: End,
}

impl Seen {
    /// That it ended by itself. A shell says by a code above 128 that a signal ended what it ran.
    pub fn ended_well(&self) -> Result<(), String> {
        match &self.end {
            End::Itself(status) => match (status.signal(), status.code()) {
                (None, Some(code)) if code <= 128 => Ok(()),
                (Some(signal), _) => Err(format!("expected an end, seen signal {signal}")),
                (None, code) => Err(format!("expected an end, seen status {code:?}")),
            },
            End::Late(limit) => Err(format!(
                "expected an end, seen none within {limit:?}: killed"
            )),
            End::NotStarted(error) => Err(format!("could not be started: {error}")),
        }
    }
}

/// A program to run.
pub struct Call {
    command: Command,
    source: Source,
    out: Option<File>,
    limit: Duration,
}

impl Call {
    pub fn new(program: impl AsRef<OsStr>) -> Call {
        Call {
            command: Command::new(program),
            source: Source::Silent,
            out: None,
            limit: LONG,
        }
    }

    pub fn arg(mut self, word: impl AsRef<OsStr>) -> Call {
        self.command.arg(word);
        self
    }

    pub fn args(mut self, words: &[impl AsRef<OsStr>]) -> Call {
        self.command.args(words);
        self
    }

    pub fn env(mut self, name: &str, value: &str) -> Call {
        self.command.env(name, value);
        self
    }

    pub fn source(mut self, source: Source) -> Call {
        self.source = source;
        self
    }

    pub fn reading_file(self, path: &Path) -> Call {
        self.source(Source::File(path.to_path_buf()))
    }

    pub fn reading_pipe(self, bytes: &[u8]) -> Call {
        self.source(Source::Pieces(Pieces::whole(bytes)))
    }

    /// Standard output goes there and is not seen.
    pub fn onto(mut self, file: File) -> Call {
        self.out = Some(file);
        self
    }

    pub fn at_once(mut self) -> Call {
        self.limit = AT_ONCE;
        self
    }

    pub fn run(self) -> Seen {
        if START.get_or_init(Instant::now).elapsed() > ALL {
            return not_started(format!("the run has taken {ALL:?}"));
        }
        self.run_in_any_case()
    }

    /// Runs it even where the time of the whole run is over.
    pub fn run_in_any_case(self) -> Seen {
        let (start, limit) = (Instant::now(), self.limit);
        match self.start() {
            Ok(running) => running.finish(start, limit),
            Err(error) => not_started(error.to_string()),
        }
    }

    fn start(self) -> std::io::Result<Running> {
        let mut command = self.command;
        let (input, pieces) = match self.source {
            Source::Silent => (Stdio::piped(), None),
            Source::File(path) => (Stdio::from(File::open(path)?), None),
            Source::Pieces(pieces) => (Stdio::piped(), Some(pieces)),
        };
        let output = self.out.map_or_else(Stdio::piped, Stdio::from);
        command.stdin(input).stdout(output).stderr(Stdio::piped());
        let mut child = Kept(command.spawn()?);
        let out = child.0.stdout.take().map(Collector::new);
        let err = child.0.stderr.take().map(Collector::new);
        let mut silent = child.0.stdin.take();
        if let (Some(pieces), Some(_)) = (pieces, &silent) {
            pieces.pour_beside(silent.take().expect("it was just seen"));
        }
        Ok(Running {
            child,
            silent,
            out,
            err,
        })
    }
}

fn not_started(why: String) -> Seen {
    Seen {
        out: Vec::new(),
        err: Vec::new(),
        took: Duration::ZERO,
        end: End::NotStarted(why),
    }
}

/// A program that is killed where nobody has seen it end.
pub struct Kept(pub Child);

impl Kept {
    /// How it ended, or nothing if it has not by then.
    pub fn end_by(&mut self, deadline: Instant) -> Option<ExitStatus> {
        loop {
            if let Ok(Some(status)) = self.0.try_wait() {
                return Some(status);
            }
            if Instant::now() >= deadline {
                return None;
            }
            thread::sleep(STEP);
        }
    }
}

impl Drop for Kept {
    fn drop(&mut self) {
        let _ = self.0.kill();
        let _ = self.0.wait();
    }
}

/// A program that was started. Where it is to hear nothing, its standard input is kept open here.
struct Running {
    child: Kept,
    silent: Option<ChildStdin>,
    out: Option<Collector>,
    err: Option<Collector>,
}

impl Running {
    fn finish(mut self, start: Instant, limit: Duration) -> Seen {
        let deadline = start + limit;
        let collectors = [&self.out, &self.err];
        let closed = collectors
            .iter()
            .all(|one| one.as_ref().is_none_or(|one| one.closed_by(deadline)));
        let status = self.child.end_by(deadline).filter(|_| closed);
        let took = start.elapsed();
        drop(self.child);
        drop(self.silent);
        let taken = |one: Option<Collector>| one.map_or(Vec::new(), Collector::taken);
        Seen {
            out: taken(self.out),
            err: taken(self.err),
            took,
            end: status.map_or(End::Late(limit), End::Itself),
        }
    }
}

/// Takes what comes through a pipe, in a thread of its own.
struct Collector {
    bytes: Arc<Mutex<Vec<u8>>>,
    closed: Receiver<()>,
}

impl Collector {
    fn new(mut pipe: impl Read + Send + 'static) -> Collector {
        let bytes = Arc::new(Mutex::new(Vec::new()));
        let (open, closed) = mpsc::channel::<()>();
        let filled = Arc::clone(&bytes);
        thread::spawn(move || {
            let _open = open;
            let mut buffer = vec![0; 1 << 16];
            while let Ok(count @ 1..) = pipe.read(&mut buffer) {
                filled
                    .lock()
                    .expect("no thread stops while it holds the bytes")
                    .extend_from_slice(&buffer[..count]);
            }
        });
        Collector { bytes, closed }
    }

    /// Whether the pipe was closed at its other end by then.
    fn closed_by(&self, deadline: Instant) -> bool {
        let left = deadline.saturating_duration_since(Instant::now());
        self.closed.recv_timeout(left) == Err(RecvTimeoutError::Disconnected)
    }

    fn taken(self) -> Vec<u8> {
        self.closed_by(Instant::now() + AFTERWARDS);
        let mut bytes = self
            .bytes
            .lock()
            .expect("no thread stops while it holds the bytes");
        std::mem::take(&mut bytes)
    }
}

#[cfg(test)]
mod tests {
    use super::*;

    fn shell(line: &str) -> Call {
        Call::new("sh").args(&["-c", line])
    }

    #[test]
    fn what_was_written_is_seen() {
        let seen = shell("cat; echo wrong >&2").reading_pipe(b"abc").run();
        assert_eq!((seen.out, seen.err), (b"abc".to_vec(), b"wrong\n".to_vec()));
    }

    #[test]
    fn a_program_that_waits_is_killed_and_told() {
        let seen = shell("echo before; exec cat").at_once().run();
        assert!(seen.ended_well().unwrap_err().contains("killed"));
        assert_eq!(seen.out, b"before\n");
        assert!(seen.took < AT_ONCE * 3);
    }

    #[test]
    fn a_child_that_is_left_behind_does_not_hold_the_run() {
        let seen = shell("sleep 10 & echo left").at_once().run();
        assert!(seen.ended_well().is_err());
        assert!(seen.took < AT_ONCE * 3);
    }

    #[test]
    fn a_signal_is_no_good_end() {
        let seen = shell("kill -SEGV $$").run();
        assert!(seen.ended_well().unwrap_err().contains("signal 11"));
        let seen = shell("sh -c 'kill -SEGV $$'; exit $?").run();
        assert!(seen.ended_well().unwrap_err().contains("139"));
    }
}
