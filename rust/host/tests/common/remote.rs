//! A client of `mossgoblin rmt` that waits for each reply.
use super::{Scratch, program};
use std::io::{BufRead, BufReader, Read, Write};
use std::path::{Path, PathBuf};
use std::process::{Child, ChildStdin, ChildStdout, Command, Stdio};

pub fn rmt(tape: &Path) -> Command {
    let mut command = program();
    command.args(["rmt", "--cartridge"]).arg(tape);
    command
}

/// An empty cartridge.
pub fn made(s: &Scratch) -> PathBuf {
    let tape = s.path("tape");
    assert!(program().arg("new").arg(&tape).arg("1M").output().unwrap().status.success());
    tape
}

/// W with its data.
pub fn write(data: &[u8]) -> Vec<u8> {
    [format!("W{}\n", data.len()).as_bytes(), data].concat()
}

pub struct Remote {
    pub child: Child,
    to: Option<ChildStdin>,
    from: BufReader<ChildStdout>,
}

impl Remote {
    pub fn start(command: &mut Command) -> Remote {
        let mut child = command.stdin(Stdio::piped()).stdout(Stdio::piped()).spawn().unwrap();
        let (to, from) = (child.stdin.take(), BufReader::new(child.stdout.take().unwrap()));
        Remote { child, to, from }
    }

    pub fn say(&mut self, command: &[u8]) -> std::io::Result<()> {
        self.to.as_mut().unwrap().write_all(command)
    }

    /// The reply: its first line, and the data of a read. None where the program has gone.
    pub fn heard(&mut self, read: bool) -> Option<(String, Vec<u8>)> {
        let mut line = String::new();
        self.from.read_line(&mut line).ok().filter(|_| line.ends_with('\n'))?;
        let mut data = Vec::new();
        if line.starts_with('E') {
            let mut text = String::new();
            self.from.read_line(&mut text).ok().filter(|_| text.ends_with('\n'))?;
        } else if read {
            data.resize(line[1..].trim().parse().unwrap(), 0);
            self.from.read_exact(&mut data).ok()?;
        }
        Some((line.trim().into(), data))
    }

    pub fn ask(&mut self, command: &[u8]) -> String {
        self.say(command).unwrap();
        self.heard(command[0] == b'R').expect("a reply").0
    }

    /// All records from the tape's start.
    pub fn all(&mut self) -> Vec<Vec<u8>> {
        assert_eq!(self.ask(b"I5\n0\n"), "A0");
        let mut all = Vec::new();
        loop {
            self.say(b"R32768\n").unwrap();
            match self.heard(true).expect("a reply") {
                (line, data) if line.starts_with('A') => all.push(data),
                _ => return all,
            }
        }
    }

    /// The end of the input, and the exit code.
    pub fn end(mut self) -> i32 {
        self.to = None;
        self.child.wait().unwrap().code().unwrap_or(-1)
    }
}

impl Drop for Remote {
    fn drop(&mut self) {
        let _ = self.child.kill();
        let _ = self.child.wait();
    }
}
