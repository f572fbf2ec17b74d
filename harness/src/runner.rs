//! Runs a program on an input: what it writes, or how it failed.

use std::io::{Read, Write};
use std::process::{Child, Command, Stdio};
use std::sync::mpsc;
use std::thread;
use std::time::Duration;

use crate::oracle::Program;

/// Longer than any program needs, under emulation too.
const PATIENCE: Duration = Duration::from_secs(120);

/// Stands for the program's name in a command.
const NAME: &str = "{}";

/// The words of the command that runs a program.
pub struct Runner {
    words: Vec<String>,
}

impl Runner {
    /// `command` with a program's name in the place of `{}`, or else at its end, runs that program.
    pub fn new(command: &str) -> Runner {
        let mut words: Vec<String> = command.split_whitespace().map(String::from).collect();
        if !command.contains(NAME) {
            words.push(NAME.into());
        }
        Runner { words }
    }

    fn start(&self, program: Program, stderr: Stdio) -> Result<Child, String> {
        let words: Vec<String> = self.words.iter().map(|word| word.replace(NAME, program.name())).collect();
        Command::new(&words[0])
            .args(&words[1..])
            .stdin(Stdio::piped())
            .stdout(Stdio::piped())
            .stderr(stderr)
            .spawn()
            .map_err(|error| format!("{} cannot be started: {error}", words[0]))
    }

    /// Runs the program once on no text. The command may have to prove and build it first: it has all the time that it needs, and
    /// what it says is passed on.
    pub fn ready(&self, program: Program) -> Result<(), String> {
        let ended = self.start(program, Stdio::inherit())?.wait_with_output().map_err(|error| error.to_string())?;
        if ended.status.success() {
            Ok(())
        } else {
            Err(format!("{} ended with {}", program.name(), ended.status))
        }
    }

    /// What the program writes. It must end with status 0 and say nothing on its standard error.
    pub fn run(&self, program: Program, input: &[u8]) -> Result<Vec<u8>, String> {
        let mut child = self.start(program, Stdio::piped())?;
        let mut stdin = child.stdin.take().expect("piped");
        let mut stdout = child.stdout.take().expect("piped");
        let mut stderr = child.stderr.take().expect("piped");
        let input = input.to_vec();
        let (sender, receiver) = mpsc::channel();
        // A program need not read all of a text that is too long, so a write that fails is no failure.
        thread::spawn(move || drop(stdin.write_all(&input)));
        thread::spawn(move || {
            let (mut wrote, mut said) = (Vec::new(), String::new());
            let read = stdout.read_to_end(&mut wrote).and(stderr.read_to_string(&mut said));
            let _ = sender.send(read.map(|_| (wrote, said)));
        });
        let Ok(read) = receiver.recv_timeout(PATIENCE) else {
            let _ = child.kill();
            let _ = child.wait();
            return Err(format!("it had not ended after {} s", PATIENCE.as_secs()));
        };
        let status = child.wait().map_err(|error| error.to_string())?;
        let (wrote, said) = read.map_err(|error| error.to_string())?;
        if status.success() && said.is_empty() {
            Ok(wrote)
        } else {
            Err(format!("it ended with {status} and said {said:?}"))
        }
    }
}
