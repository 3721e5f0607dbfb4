//! Reference host: brings a card up, one command a step, each fed the card's answer to the one before.
//!
//! Written from the rules of 02's order 2, as a second opinion on the host proper. The program's lines are
//! here too: a command out, the card's answer in, and at last how it ended.

use crate::card::crc7;
use crate::lines::{push_hex, up_to};
use std::io;

pub const MOST_POLLS: u16 = 1000;
/// Bytes of the longest answer on a line; no line of the bench has more.
pub const LONGEST_ANSWER: usize = 514;
pub const USAGE: &str = "bring_up: the limit is a number from 1 to 1000";

const VOLTAGE_AND_PATTERN: u32 = 0x1AA;
const WINDOW: u32 = 0x00FF_8000;

pub type Frame = [u8; 6];

#[derive(Clone, Copy, Debug, PartialEq, Eq, PartialOrd, Ord)]
pub enum Command {
    GoIdleState,
    SendIfCond,
    AppCmd,
    SdSendOpCond,
    AllSendCid,
    SendRelativeAddr,
    SendCsd,
    SelectCard,
}

/// Why an answer is not the expected one.
#[derive(Clone, Copy, Debug, PartialEq, Eq, PartialOrd, Ord)]
pub enum Reason {
    Size,
    Wrong,
    Heard,
    Echo,
    /// The card's line is no answer to a command.
    Line,
}

#[derive(Clone, Copy, Debug, PartialEq, Eq)]
pub enum End {
    Selected { rca: u16, polls: u16, blocks: u32 },
    Stopped(Command, Reason),
    Busy(u16),
}

#[derive(Clone, Copy, Debug, PartialEq, Eq)]
pub enum Step {
    Send(Frame),
    End(End),
}

pub struct Host {
    limit: u16,
    /// A41 that were sent.
    polls: u16,
    /// The command whose answer is due.
    pub sent: Command,
    rca: u16,
    csd: [u8; 16],
}

impl Command {
    pub fn index(self) -> u8 {
        match self {
            Command::GoIdleState => 0,
            Command::SendIfCond => 8,
            Command::AppCmd => 55,
            Command::SdSendOpCond => 41,
            Command::AllSendCid => 2,
            Command::SendRelativeAddr => 3,
            Command::SendCsd => 9,
            Command::SelectCard => 7,
        }
    }

    pub fn name(self) -> String {
        let mark = if self == Command::SdSendOpCond { "A" } else { "" };
        format!("{mark}{}", self.index())
    }
}

impl Reason {
    pub fn name(self) -> &'static str {
        match self {
            Reason::Size => "1",
            Reason::Wrong => "7",
            Reason::Heard => "heard",
            Reason::Echo => "echo",
            Reason::Line => "line",
        }
    }
}

impl Host {
    /// The host and its first frame; nothing where the limit is none.
    pub fn begin(limit: u16) -> Option<(Host, Step)> {
        if !(1..=MOST_POLLS).contains(&limit) {
            return None;
        }
        let mut host = Host { limit, polls: 0, sent: Command::GoIdleState, rca: 0, csd: [0; 16] };
        let first = host.send(Command::GoIdleState);
        Some((host, first))
    }

    /// The card's answer to the frame before, empty for silence; nothing where its line is no answer.
    pub fn hear(&mut self, answer: Option<&[u8]>) -> Step {
        answer
            .ok_or(Reason::Line)
            .and_then(|answer| self.go_on(answer))
            .unwrap_or_else(|reason| Step::End(End::Stopped(self.sent, reason)))
    }

    fn go_on(&mut self, answer: &[u8]) -> Result<Step, Reason> {
        let next = match self.sent {
            Command::GoIdleState => silence(answer).map(|()| Command::SendIfCond),
            Command::SendIfCond => r7(answer).map(|()| Command::AppCmd),
            Command::AppCmd => short(answer, 55).map(|_| Command::SdSendOpCond),
            Command::SdSendOpCond => {
                if r3(answer)? >> 31 == 1 {
                    Ok(Command::AllSendCid)
                } else if self.polls == self.limit {
                    return Ok(Step::End(End::Busy(self.polls)));
                } else {
                    Ok(Command::AppCmd)
                }
            }
            Command::AllSendCid => r2(answer).map(|_| Command::SendRelativeAddr),
            Command::SendRelativeAddr => {
                self.rca = (short(answer, 3)? >> 16) as u16;
                Ok(Command::SendCsd)
            }
            Command::SendCsd => {
                self.csd = r2(answer)?;
                Ok(Command::SelectCard)
            }
            Command::SelectCard => return short(answer, 7).map(|_| Step::End(self.selected())),
        };
        next.map(|command| self.send(command))
    }

    fn send(&mut self, command: Command) -> Step {
        let argument = match command {
            Command::SendIfCond => VOLTAGE_AND_PATTERN,
            Command::SdSendOpCond => WINDOW,
            Command::SendCsd | Command::SelectCard => u32::from(self.rca) << 16,
            _ => 0,
        };
        self.polls += u16::from(command == Command::SdSendOpCond);
        self.sent = command;
        let mut frame = [0x40 | command.index(), 0, 0, 0, 0, 0];
        frame[1..5].copy_from_slice(&argument.to_be_bytes());
        frame[5] = seal(&frame[..5]);
        Step::Send(frame)
    }

    fn selected(&self) -> End {
        End::Selected { rca: self.rca, polls: self.polls, blocks: block_count(&self.csd) }
    }
}

// ---- answers

fn silence(answer: &[u8]) -> Result<(), Reason> {
    if answer.is_empty() {
        Ok(())
    } else {
        Err(Reason::Heard)
    }
}

/// The four bytes between index and check: R1, R6 and R7.
fn short(answer: &[u8], index: u8) -> Result<u32, Reason> {
    let &[head, a, b, c, d, end] = answer else {
        return Err(Reason::Size);
    };
    if head == index && end == seal(&answer[..5]) {
        Ok(u32::from_be_bytes([a, b, c, d]))
    } else {
        Err(Reason::Wrong)
    }
}

/// The reserved bits above voltage and pattern are ignored.
fn r7(answer: &[u8]) -> Result<(), Reason> {
    if short(answer, 8)? & 0xFFF == VOLTAGE_AND_PATTERN {
        Ok(())
    } else {
        Err(Reason::Echo)
    }
}

fn r3(answer: &[u8]) -> Result<u32, Reason> {
    match *answer {
        [0x3F, a, b, c, d, 0xFF] => Ok(u32::from_be_bytes([a, b, c, d])),
        [_, _, _, _, _, _] => Err(Reason::Wrong),
        _ => Err(Reason::Size),
    }
}

fn r2(answer: &[u8]) -> Result<[u8; 16], Reason> {
    let answer: &[u8; 17] = answer.try_into().map_err(|_| Reason::Size)?;
    if answer[0] == 0x3F && answer[16] == seal(&answer[1..16]) {
        Ok(std::array::from_fn(|i| answer[1 + i]))
    } else {
        Err(Reason::Wrong)
    }
}

/// CRC7 and end bit.
pub fn seal(content: &[u8]) -> u8 {
    crc7(content) << 1 | 1
}

/// By C_SIZE, bits 73 to 62 of a CSD 1.0, and C_SIZE_MULT, bits 49 to 47.
fn block_count(csd: &[u8; 16]) -> u32 {
    let register = u128::from_be_bytes(*csd);
    let c_size = (register >> 62) as u32 & 0xFFF;
    let c_size_mult = (register >> 47) as u32 & 7;
    (c_size + 1) << (c_size_mult + 2)
}

// ---- lines

/// The limit of a program's arguments, those behind its name.
pub fn read_limit(arguments: &[String]) -> Option<u16> {
    let text = match arguments {
        [] => return Some(MOST_POLLS),
        [text] => text,
        _ => return None,
    };
    if text.is_empty() || !text.bytes().all(|byte| byte.is_ascii_digit()) {
        return None;
    }
    let significant = text.trim_start_matches('0');
    significant.parse().ok().filter(|limit| (1..=MOST_POLLS).contains(limit))
}

/// The bytes of an answer line, none for silence; nothing where it is no answer to a command.
pub fn read_answer(line: &[u8]) -> Option<Vec<u8>> {
    if line == b"none" {
        return Some(Vec::new());
    }
    let digits = line.strip_prefix(b"rsp\t").filter(|digits| !digits.is_empty())?;
    up_to(digits, LONGEST_ANSWER).ok()
}

/// The line of a step, newline included.
pub fn step_line(step: &Step) -> Vec<u8> {
    let text = match step {
        Step::Send(frame) => {
            let mut line = b"cmd\t".to_vec();
            push_hex(&mut line, frame);
            line.push(b'\n');
            return line;
        }
        Step::End(End::Selected { rca, polls, blocks }) => format!("selected\t{rca:04X}\t{polls}\t{blocks}"),
        Step::End(End::Stopped(command, reason)) => format!("stopped\t{}\t{}", command.name(), reason.name()),
        Step::End(End::Busy(polls)) => format!("busy\t{polls}"),
    };
    format!("{text}\n").into_bytes()
}

/// The program: `say` is handed each line, `hear` gives the card's, or nothing where the input has ended.
pub fn run(
    arguments: &[String],
    mut say: impl FnMut(&[u8]) -> io::Result<()>,
    mut hear: impl FnMut() -> io::Result<Option<Vec<u8>>>,
) -> io::Result<()> {
    let Some((mut host, mut step)) = read_limit(arguments).and_then(Host::begin) else {
        return say(format!("{USAGE}\n").as_bytes());
    };
    loop {
        say(&step_line(&step))?;
        if let Step::End(_) = step {
            return Ok(());
        }
        let answer = hear()?.and_then(|line| read_answer(&line));
        step = host.hear(answer.as_deref());
    }
}
