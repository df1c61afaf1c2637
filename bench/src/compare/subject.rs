//! Asking a program for its output.

use std::io::{self, Read, Write};
use std::path::{Path, PathBuf};
use std::process::{Child, ChildStdout, Command, ExitStatus, Stdio};
use std::sync::mpsc;
use std::thread;
use std::time::{Duration, Instant};

use crate::programs::{host_codes, Program};

/// A program that has not ended after so long, or its output has not, is taken
/// to end never.
const PATIENCE: Duration = Duration::from_secs(60);

/// For so long a program's end is looked for without a pause.
const BRIEF: Duration = Duration::from_millis(5);

/// A length of pieces that leaves an input whole.
pub const WHOLE: usize = usize::MAX;

/// What answers as the programs do.
pub trait Subject: Sync {
    fn answer(&self, program: Program, input: &[u8]) -> io::Result<Vec<u8>>;
}

/// The programs of a folder of crates, each a process of its own.
pub struct Crates {
    folder: PathBuf,
    /// What stands after a program's name in that of its binary.
    suffix: String,
}

impl Crates {
    pub fn in_folder(folder: &Path, suffix: &str) -> Self {
        Crates {
            folder: folder.to_path_buf(),
            suffix: suffix.to_string(),
        }
    }

    pub fn binary(&self, program: Program) -> PathBuf {
        if program.is_host() {
            return self.host().join("out").join("host");
        }
        self.folder.join(program.name()).join("out").join(format!(
            "{}{}",
            program.name(),
            self.suffix
        ))
    }

    /// The folder of the host in C, which stands beside that of the crates.
    fn host(&self) -> PathBuf {
        self.folder.join("..").join("examples").join("host")
    }

    fn command(&self, program: Program) -> Command {
        let mut command = Command::new(self.binary(program));
        if program.is_host() {
            command.arg(program.name());
        }
        if program == Program::HostSheet {
            command.args(host_codes().map(|code| code.to_string()));
        }
        command
    }

    pub fn stored_input(&self, program: Program) -> PathBuf {
        if program.is_host() {
            return self.host().join(program.name());
        }
        self.folder.join(program.name()).join("stdin")
    }
}

impl Subject for Crates {
    fn answer(&self, program: Program, input: &[u8]) -> io::Result<Vec<u8>> {
        // Some inputs come in pieces, so that a program also meets a read that
        // answers less than there will be.
        let piece = if input.len().is_multiple_of(8) {
            61
        } else {
            WHOLE
        };
        let Run { status, output, .. } = run(&mut self.command(program), input, piece, |_| ())?;
        if status.success() {
            Ok(output)
        } else {
            Err(io::Error::other(format!(
                "{} ended with {status}",
                program.name()
            )))
        }
    }
}

/// What a process left.
pub struct Run<T> {
    pub status: ExitStatus,
    pub output: Vec<u8>,
    /// What was asked of the process between the end of its output and its own.
    pub asked: T,
}

/// Runs a command on an input, which is written in pieces of a length. Input
/// and output each have a thread, since a program may write before it has read
/// all.
pub fn run<T>(
    command: &mut Command,
    input: &[u8],
    piece: usize,
    ask: impl FnOnce(&Child) -> T,
) -> io::Result<Run<T>> {
    let mut child = command
        .stdin(Stdio::piped())
        .stdout(Stdio::piped())
        .spawn()?;
    let (stdin, stdout) = (child.stdin.take(), child.stdout.take());
    let input = input.to_vec();
    // A program that stops reading has its output compared all the same.
    let writer = thread::spawn(move || {
        let mut stdin = stdin?;
        input
            .chunks(piece)
            .try_for_each(|piece| stdin.write_all(piece))
            .ok()
    });
    let output = read_all(&mut child, stdout);
    let asked = ask(&child);
    let status = wait(&mut child)?;
    let _ = writer.join();
    Ok(Run {
        status,
        output: output?,
        asked,
    })
}

/// Most programs end as their output does, so that there is hardly a wait.
fn wait(child: &mut Child) -> io::Result<ExitStatus> {
    let start = Instant::now();
    loop {
        if let Some(status) = child.try_wait()? {
            return Ok(status);
        }
        match start.elapsed() {
            waited if waited > PATIENCE => {
                child.kill()?;
                return Err(io::Error::new(io::ErrorKind::TimedOut, "no end"));
            }
            waited if waited > BRIEF => thread::sleep(BRIEF),
            _ => thread::yield_now(),
        }
    }
}

fn read_all(child: &mut Child, stdout: Option<ChildStdout>) -> io::Result<Vec<u8>> {
    let (sender, receiver) = mpsc::channel();
    thread::spawn(move || {
        let mut output = Vec::new();
        let read = stdout.map_or(Ok(0), |mut stdout| stdout.read_to_end(&mut output));
        let _ = sender.send(read.map(|_| output));
    });
    receiver.recv_timeout(PATIENCE).unwrap_or_else(|_| {
        child.kill()?;
        Err(io::Error::new(io::ErrorKind::TimedOut, "no end of output"))
    })
}
