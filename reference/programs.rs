//! The programs that the differential tester drives, and what it says of a difference.

use crate::calls::Call;
use crate::card::Card;
use crate::spi_coverage::met;
use std::collections::VecDeque;
use std::io::{BufRead, BufReader, Write};
use std::process::{Child, ChildStdin, Command, Stdio};
use std::sync::mpsc::{channel, Receiver, RecvTimeoutError};
use std::time::Duration;

const CONTEXT: usize = 40;
const PATIENCE: Duration = Duration::from_secs(20);

pub struct Program {
    child: Child,
    input: Option<ChildStdin>,
    answers: Receiver<Vec<u8>>,
}

impl Program {
    pub fn start(command: &str) -> Result<Program, String> {
        let mut child = Command::new("sh")
            .args(["-c", &format!("exec {command}")])
            .stdin(Stdio::piped())
            .stdout(Stdio::piped())
            .spawn()
            .map_err(|error| format!("cannot start {command}: {error}"))?;
        let mut output = BufReader::new(child.stdout.take().unwrap());
        let (sender, answers) = channel();
        // A thread of its own, so that neither pipe can fill up and stop both ends.
        std::thread::spawn(move || loop {
            let mut line = Vec::new();
            match output.read_until(b'\n', &mut line) {
                Ok(1..) if sender.send(line).is_ok() => {}
                _ => return,
            }
        });
        Ok(Program { input: child.stdin.take(), child, answers })
    }

    pub fn send(&mut self, text: &[u8]) -> std::io::Result<()> {
        let input = self.input.as_mut().expect("input still open");
        input.write_all(text)?;
        input.flush()
    }

    pub fn end_input(&mut self) {
        self.input = None;
    }

    pub fn check_end(&mut self) -> Result<(), String> {
        match self.answers.recv_timeout(PATIENCE) {
            Ok(extra) => Err(format!("gives an answer too many: {}", extra.escape_ascii())),
            Err(RecvTimeoutError::Timeout) => Err("does not end with its input".into()),
            Err(RecvTimeoutError::Disconnected) => match self.child.wait() {
                Ok(status) if status.success() => Ok(()),
                ended => Err(format!("ends badly: {ended:?}")),
            },
        }
    }

    pub fn answer(&mut self) -> Result<Vec<u8>, String> {
        self.answers.recv_timeout(PATIENCE).map_err(|error| format!("no answer ({error})"))
    }
}

impl Drop for Program {
    fn drop(&mut self) {
        self.input = None;
        let _ = self.child.kill();
        let _ = self.child.wait();
    }
}

pub type Answer = Result<Vec<u8>, String>;

/// All lines since the programs' start, and the last few with their answers.
#[derive(Default)]
pub struct History {
    lines: Vec<u8>,
    count: u64,
    context: VecDeque<String>,
}

impl History {
    pub fn push(&mut self, call: &Call, card: &Card, answers: &[Answer; 2]) {
        let line = call.line();
        self.lines.extend_from_slice(&line);
        self.lines.push(b'\n');
        self.count += 1;
        if self.context.len() == CONTEXT {
            self.context.pop_front();
        }
        let name = met(card);
        self.context.push_back(format!(
            "{name:5} {:16} {} => {}",
            call.name(),
            shorten(&line),
            show(&answers[0])
        ));
    }

    pub fn report(&self, answers: &[Answer; 2]) -> String {
        let path = std::env::temp_dir().join(format!("differ-{}.in", std::process::id()));
        let kept = match std::fs::write(&path, &self.lines) {
            Ok(()) => format!("{} lines since the start kept in {}", self.count, path.display()),
            Err(error) => format!("{} lines since the start not kept: {error}", self.count),
        };
        let context: Vec<String> = self.context.iter().cloned().collect();
        format!("{}\nA: {}\nB: {}\n{kept}", context.join("\n"), whole(&answers[0]), whole(&answers[1]))
    }
}

fn shorten(line: &[u8]) -> String {
    let text = line.escape_ascii().to_string();
    if text.len() <= 60 {
        text
    } else {
        format!("{}... ({} bytes)", &text[..40], line.len())
    }
}

fn show(answer: &Answer) -> String {
    answer.as_ref().map_or_else(String::clone, |line| shorten(line.trim_ascii_end()))
}

fn whole(answer: &Answer) -> String {
    answer.as_ref().map_or_else(String::clone, |line| line.escape_ascii().to_string())
}
