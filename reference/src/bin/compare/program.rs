//! Runs a program that the reference is compared with.

use std::fmt::Display;
use std::io::{Read, Write};
use std::process::{Child, Command, ExitStatus, Stdio};
use std::sync::mpsc::{self, Receiver};
use std::thread;
use std::time::Duration;

/// Far more than any text takes, so that a program that waits for ever is found out.
const PATIENCE: Duration = Duration::from_secs(60);

pub struct Program {
    command_line: String,
}

/// What a program wrote and how it ended.
pub struct Run {
    pub output: Vec<u8>,
    pub errors: Vec<u8>,
    pub status: ExitStatus,
}

impl Program {
    pub fn new(command_line: String) -> Program {
        Program { command_line }
    }

    pub fn command_line(&self) -> &str {
        &self.command_line
    }

    pub fn run(&self, input: Vec<u8>) -> Result<Run, String> {
        let mut child = self.start()?;
        let mut pipe = child.stdin.take().expect("the input is piped");
        // Beside the reading, because all pipes may fill. A program that ends early closes its input;
        // its answers then show what happened.
        thread::spawn(move || {
            let _ = pipe.write_all(&input);
        });
        let written = read_all(&mut child);
        let status = child.wait().map_err(|error| self.complaint(&error))?;
        match written {
            Some((output, errors)) => Ok(Run { output, errors, status }),
            None => Err(self.complaint(&format!("no end after {} seconds", PATIENCE.as_secs()))),
        }
    }

    fn start(&self) -> Result<Child, String> {
        let mut words = self.command_line.split_whitespace();
        let program = words.next().ok_or_else(|| self.complaint(&"no program is named"))?;
        Command::new(program)
            .args(words)
            .stdin(Stdio::piped())
            .stdout(Stdio::piped())
            .stderr(Stdio::piped())
            .spawn()
            .map_err(|error| self.complaint(&error))
    }

    fn complaint(&self, reason: &dyn Display) -> String {
        format!("cannot run '{}': {reason}", self.command_line)
    }
}

/// What the child writes to both its outputs until it ends; if that takes too long, the child is ended.
fn read_all(child: &mut Child) -> Option<(Vec<u8>, Vec<u8>)> {
    let output = read_beside(child.stdout.take().expect("the output is piped"));
    let errors = read_beside(child.stderr.take().expect("standard error is piped"));
    let written =
        output.recv_timeout(PATIENCE).and_then(|output| Ok((output, errors.recv_timeout(PATIENCE)?)));
    if written.is_err() {
        let _ = child.kill();
    }
    written.ok()
}

fn read_beside(mut pipe: impl Read + Send + 'static) -> Receiver<Vec<u8>> {
    let (sender, receiver) = mpsc::channel();
    thread::spawn(move || {
        let mut bytes = Vec::new();
        let _ = pipe.read_to_end(&mut bytes);
        let _ = sender.send(bytes);
    });
    receiver
}
