//! The cards that random bring-ups meet, and what happens to their answers on the way to the host.

use crate::bring_up::{read_answer, seal, step_line, Command, Frame, Step, LONGEST_ANSWER};
use crate::chance::Rng;
use crate::lines::{push_hex, Bench};

/// A card of random settings, locked where it has a password, or one that answers as it should with random content.
pub enum AnyCard<'a> {
    Reference { bench: &'a mut Bench, is_locked: bool },
    MadeUp { busy: u64 },
}

impl<'a> AnyCard<'a> {
    pub fn new(rng: &mut Rng, bench: &'a mut Bench, limit: u16) -> AnyCard<'a> {
        if rng.chance(50) {
            return AnyCard::MadeUp { busy: busy_polls(rng, u64::from(limit)) };
        }
        let unit = 4 << rng.below(5);
        let count = unit * (1 + rng.below(2048 / unit));
        let (polls, flags) = (rng.pick(&[0, 0, 1, 2, 7, 15]), rng.below(4));
        let (high, low) = (rng.next() >> 8, rng.next());
        let length = if rng.chance(50) { 0 } else { 1 + rng.below(16) };
        let password = (rng.next(), rng.next());
        let mut power = format!("power\t{count:08X}\t{polls:02X}\t{high:014X}{low:016X}\t{flags:02X}");
        power += &format!("\t{length:02X}\t{:016X}{:016X}", password.0, password.1);
        assert_eq!(bench.answer(power.as_bytes()), b"none\n", "{power}");
        AnyCard::Reference { bench, is_locked: length > 0 }
    }

    pub fn is_locked(&self) -> bool {
        matches!(self, AnyCard::Reference { is_locked: true, .. })
    }

    /// The line of the answer, without its newline.
    pub fn answer(&mut self, rng: &mut Rng, command: Command, frame: &Frame) -> Vec<u8> {
        match self {
            AnyCard::Reference { bench, .. } => {
                let line = step_line(&Step::Send(*frame));
                bench.answer(line.trim_ascii_end()).trim_ascii_end().to_vec()
            }
            AnyCard::MadeUp { busy } => {
                let is_busy = command == Command::SdSendOpCond && *busy > 0;
                *busy -= u64::from(is_busy);
                made_up(rng, command, is_busy)
            }
        }
    }
}

/// As many as the limit allows, fewer or one too many; seldom hundreds.
fn busy_polls(rng: &mut Rng, limit: u64) -> u64 {
    if limit > 20 && rng.chance(95) {
        return rng.below(4);
    }
    let any = rng.below(limit + 1);
    rng.weighted(&[(3, 0), (3, limit - 1), (2, limit), (2, any)])
}

fn made_up(rng: &mut Rng, command: Command, is_busy: bool) -> Vec<u8> {
    let content = word(rng);
    match command {
        Command::GoIdleState => b"none".to_vec(),
        Command::SendIfCond => short(8, content & !0xFFF | 0x1AA),
        Command::SdSendOpCond => {
            let ocr = content & !(1 << 31) | u32::from(!is_busy) << 31;
            line(&[&[0x3F], &ocr.to_be_bytes()[..], &[0xFF]].concat())
        }
        Command::AllSendCid | Command::SendCsd => register(rng),
        Command::AppCmd | Command::SendRelativeAddr | Command::SelectCard => short(command.index(), content),
    }
}

/// Few bits, all but few, or any.
fn word(rng: &mut Rng) -> u32 {
    let few = 1 << rng.below(32) | 1 << rng.below(32);
    let any = rng.word();
    rng.weighted(&[(1, 0), (2, few), (1, !few), (4, any)])
}

fn short(index: u8, content: u32) -> Vec<u8> {
    let mut bytes = vec![index];
    bytes.extend(content.to_be_bytes());
    bytes.push(seal(&bytes));
    line(&bytes)
}

fn register(rng: &mut Rng) -> Vec<u8> {
    let mut bytes = vec![0x3F];
    bytes.extend((0..15).map(|_| rng.byte()));
    bytes.push(seal(&bytes[1..]));
    line(&bytes)
}

fn line(bytes: &[u8]) -> Vec<u8> {
    let mut line = b"rsp\t".to_vec();
    push_hex(&mut line, bytes);
    line
}

/// What happens to an answer.
#[derive(Clone, Copy, Debug, PartialEq, Eq, PartialOrd, Ord)]
pub enum Damage {
    Bits,
    Size,
    Silence,
    /// Another content, and the check that it has.
    Content,
    /// The answer to another command.
    Index,
    Check,
    Noise,
    OtherLine,
    InputEnds,
}

const DAMAGES: [(u64, Damage); 9] = [
    (5, Damage::Bits),
    (3, Damage::Size),
    (2, Damage::Silence),
    (5, Damage::Content),
    (2, Damage::Index),
    (2, Damage::Check),
    (2, Damage::Noise),
    (4, Damage::OtherLine),
    (1, Damage::InputEnds),
];

/// The line as it arrives; none where the input ends.
pub fn damaged(rng: &mut Rng, answer: &[u8]) -> (Damage, Option<Vec<u8>>) {
    let damage = rng.weighted(&DAMAGES);
    let bytes = read_answer(answer).filter(|bytes| bytes.len() >= 6);
    let arrives = match (damage, bytes) {
        (Damage::InputEnds, _) => None,
        (Damage::Silence, _) => Some(b"none".to_vec()),
        (Damage::OtherLine, _) => Some(other_line(rng, answer)),
        (Damage::Noise, _) | (_, None) => Some(noise(rng)),
        (_, Some(bytes)) => Some(line(&changed(rng, damage, bytes))),
    };
    (damage, arrives)
}

fn changed(rng: &mut Rng, damage: Damage, mut bytes: Vec<u8>) -> Vec<u8> {
    let end = bytes.len() - 1;
    match damage {
        Damage::Size => {
            let any = 1 + rng.below(20) as usize;
            let size = rng.weighted(&[(2, end), (2, end + 2), (2, 6), (1, 17), (1, any)]);
            bytes.resize(size, rng.byte());
        }
        Damage::Check => bytes[end] ^= rng.pick(&[1, 1, 0x80, 0xFE, 0xFF]),
        Damage::Index => {
            let any = rng.byte();
            bytes[0] = rng.pick(&[3, 7, 8, 55, 0x3F, any, any, any]);
            bytes[end] = if end == 5 { seal(&bytes[..5]) } else { bytes[end] };
        }
        Damage::Content => {
            let first = if end == 5 { 0 } else { 1 };
            for _ in 0..1 + rng.below(3) {
                bytes[1 + rng.below(end as u64 - 1) as usize] ^= 1 << rng.below(8);
            }
            // an R3 has no check
            let is_r3 = end == 5 && bytes[0] == 0x3F;
            bytes[end] = if is_r3 { 0xFF } else { seal(&bytes[first..end]) };
        }
        _ => {
            for _ in 0..1 + rng.below(3) {
                bytes[rng.below(end as u64 + 1) as usize] ^= 1 << rng.below(8);
            }
        }
    }
    bytes
}

/// Random bytes, up to the longest answer.
fn noise(rng: &mut Rng) -> Vec<u8> {
    let any = 1 + rng.below(20) as usize;
    let size = rng.weighted(&[(3, 6), (2, 17), (3, any), (1, LONGEST_ANSWER)]);
    let bytes: Vec<u8> = (0..size).map(|_| rng.byte()).collect();
    line(&bytes)
}

/// A line that is no answer to a command.
fn other_line(rng: &mut Rng, answer: &[u8]) -> Vec<u8> {
    let text = |text: &[u8]| text.to_vec();
    match rng.below(12) {
        0 => text(b""),
        1 => format!("ref\t{}", 1 + rng.below(8)).into_bytes(),
        2 => text(rng.pick(&[b"ack".as_slice(), b"nak", b"rsp", b"rsp\t", b"NONE", b"cmd\t400000000095"])),
        3 => [b"blk\t", &answer[4..]].concat(),
        4 => [answer, rng.pick(&[b" ".as_slice(), b"\r", b"\t", b"0", b"\0", b"G0"])].concat(),
        5 => [b" ", answer].concat(),
        6 => answer[..answer.len() - 1].to_vec(),
        7 => answer.to_ascii_lowercase().iter().chain(b"a0").copied().collect(),
        8 => [b"rsp ", &answer[4..]].concat(),
        9 => [b"rsp\t", vec![b'0'; 2 * LONGEST_ANSWER + 1 + rng.below(4) as usize].as_slice()].concat(),
        10 => [answer, vec![b'F'; 1030 + rng.below(9000) as usize].as_slice()].concat(),
        _ => (0..rng.below(40)).map(|_| rng.byte()).filter(|&byte| byte != b'\n').collect(),
    }
}
