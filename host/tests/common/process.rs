//! Processes that tests start. No test waits for one longer than a limit.

use std::ffi::{c_int, c_short, c_ulong};
use std::fs::File;
use std::io::{self, Read, Write};
use std::os::fd::{AsRawFd, OwnedFd};
use std::os::unix::process::CommandExt;
use std::process::{Child, Command, Output, Stdio};
use std::thread;
use std::time::{Duration, Instant};

/// How long a test waits before it fails: far longer than anything takes on a busy machine.
const LIMIT: Duration = Duration::from_secs(120);

/// The request that a process be killed when the thread that started it ends.
const PR_SET_PDEATHSIG: c_int = 1;

const SIGKILL: c_int = 9;
const SIG_DFL: usize = 0;

/// Signals have the numbers from 1 to this.
const LAST_SIGNAL: c_int = 64;

/// `struct pollfd`, and its event that there is something to be read.
#[repr(C)]
struct PollFd {
    fd: c_int,
    events: c_short,
    happened: c_short,
}
const POLLIN: c_short = 1;

extern "C" {
    fn kill(pid: c_int, number: c_int) -> c_int;
    fn poll(files: *mut PollFd, count: c_ulong, milliseconds: c_int) -> c_int;
    fn prctl(request: c_int, ...) -> c_int;
    fn setsid() -> c_int;
    fn signal(number: c_int, handler: usize) -> usize;
}

/// Runs a command and gives its status and what it wrote.
#[track_caller]
pub fn run(command: &mut Command) -> Output {
    command.stdout(Stdio::piped()).stderr(Stdio::piped());
    Process::start(command).end()
}

/// Waits until something holds.
#[track_caller]
pub fn wait_until(what: &str, mut holds: impl FnMut() -> bool) {
    let start = Instant::now();
    while !holds() {
        assert!(start.elapsed() < LIMIT, "still waited for: {what}");
        thread::sleep(Duration::from_millis(2));
    }
}

/// A process in a session of its own, so that it can't reach the terminal of whoever runs the
/// tests. It is killed, with the processes of its group, if the test ends before it does.
pub struct Process {
    child: Child,
    /// The command, for messages.
    words: String,
    start: Instant,
    limit: Duration,
    ended: bool,
}

impl Process {
    #[track_caller]
    pub fn start(command: &mut Command) -> Process {
        Process::try_start(command).unwrap()
    }

    /// The same, where it may be that the command can't be started.
    pub fn try_start(command: &mut Command) -> io::Result<Process> {
        // SAFETY: all three functions may be called between fork and exec.
        unsafe {
            command.pre_exec(|| {
                prctl(PR_SET_PDEATHSIG, SIGKILL as c_ulong);
                // Does nothing for a command that has its session already, with a terminal.
                setsid();
                // A process inherits what whoever started the tests has ignored, as nohup does.
                for number in 1..=LAST_SIGNAL {
                    signal(number, SIG_DFL);
                }
                Ok(())
            })
        };
        Ok(Process {
            child: command.spawn()?,
            words: format!("{command:?}"),
            start: Instant::now(),
            limit: LIMIT,
            ended: false,
        })
    }

    /// Has another limit.
    pub fn within(mut self, limit: Duration) -> Process {
        self.limit = limit;
        self
    }

    pub fn id(&self) -> u32 {
        self.child.id()
    }

    /// Closes the pipe from it.
    pub fn close_output(&mut self) {
        drop(self.child.stdout.take());
    }

    /// Writes to the pipe to it, which is not more than a pipe holds, and closes it.
    #[track_caller]
    pub fn write(&mut self, bytes: &[u8]) {
        let mut pipe = self.child.stdin.take().unwrap();
        pipe.write_all(bytes).unwrap();
    }

    /// Waits for the first byte that it writes to a pipe, and takes that byte alone.
    #[track_caller]
    pub fn first_byte(&mut self) -> u8 {
        let pipe = self.child.stdout.take().unwrap();
        let mut pipe = File::from(OwnedFd::from(pipe));
        self.wait_readable([Some(&pipe), None]);
        let mut byte = [0];
        pipe.read_exact(&mut byte).unwrap();
        self.child.stdout = Some(OwnedFd::from(pipe).into());
        byte[0]
    }

    /// Waits until it ends, and gives its status and what it wrote to pipes.
    #[track_caller]
    pub fn end(mut self) -> Output {
        let mut pipes = [
            self.child.stdout.take().map(OwnedFd::from),
            self.child.stderr.take().map(OwnedFd::from),
        ]
        .map(|pipe| pipe.map(File::from));
        let mut wrote = [Vec::new(), Vec::new()];
        while pipes.iter().any(Option::is_some) {
            let readable = self.wait_readable([pipes[0].as_ref(), pipes[1].as_ref()]);
            for k in 0..pipes.len() {
                if readable[k] {
                    let mut part = [0; 4096];
                    match pipes[k].as_mut().unwrap().read(&mut part).unwrap() {
                        0 => pipes[k] = None,
                        len => wrote[k].extend(&part[..len]),
                    }
                }
            }
        }
        let status = loop {
            if let Some(status) = self.child.try_wait().unwrap() {
                break status;
            }
            self.left();
            thread::sleep(Duration::from_millis(1));
        };
        self.ended = true;
        let [stdout, stderr] = wrote;
        Output {
            status,
            stdout,
            stderr,
        }
    }

    /// Waits until one of two pipes can be read without waiting, or was closed on the other side,
    /// and tells which.
    #[track_caller]
    fn wait_readable(&self, pipes: [Option<&File>; 2]) -> [bool; 2] {
        let mut files = pipes.map(|pipe| PollFd {
            // A number below 0 is passed over.
            fd: pipe.map_or(-1, AsRawFd::as_raw_fd),
            events: POLLIN,
            happened: 0,
        });
        loop {
            let milliseconds = self.left().as_millis() as c_int + 1;
            // SAFETY: the pointer and the count are those of the array.
            match unsafe { poll(files.as_mut_ptr(), files.len() as c_ulong, milliseconds) } {
                1.. => return files.map(|file| file.happened != 0),
                // The time is over, or a signal came in between.
                _ => continue,
            }
        }
    }

    /// How much time is left. Fails where there is none.
    #[track_caller]
    fn left(&self) -> Duration {
        match self.limit.checked_sub(self.start.elapsed()) {
            Some(left) => left,
            None => panic!(
                "killed, as it did not end within {:?}: {}",
                self.limit, self.words
            ),
        }
    }
}

impl Drop for Process {
    fn drop(&mut self) {
        if !self.ended {
            // SAFETY: the process has not been waited for, so its number, which is its group's too,
            // is still its own.
            unsafe { kill(-(self.child.id() as c_int), SIGKILL) };
            let _ = self.child.wait();
        }
    }
}
