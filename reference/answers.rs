//! A description as the answers that a host is fed: those of the reference card, on a console.
//!
//! ```text
//! 8 1AA                any item of frames.rs: the card's answer to its line
//! quiet power 64 2 0 0 the card's answer is left out
//! flip 9 55            the card's answer with bit 9 flipped, bit 0 is sent first; several as 9,11
//! say raw ack          no call: the line itself is the answer
//! short 8 2AA          no call: six bytes with this index, content in hex, and a right check
//! ```

use crate::card::crc7;
use crate::lines::{push_hex, up_to, Bench, LONGEST_BLOCK};
use crate::{ended, replay_line};

pub struct Answers(Bench);

impl Answers {
    pub fn new() -> Answers {
        Answers(Bench::console())
    }

    /// The line of an item, newline included; none where it is left out.
    pub fn line(&mut self, item: &str) -> Option<Vec<u8>> {
        match item.split_once(' ') {
            Some(("quiet", item)) => self.answer(item).map(|_| Vec::new()),
            Some(("flip", rest)) => {
                let (bits, item) = rest.split_once(' ')?;
                flip(&self.answer(item)?, bits)
            }
            Some(("say", item)) => replay_line(item).map(ended),
            Some(("short", rest)) => short(rest),
            _ => self.answer(item),
        }
    }

    fn answer(&mut self, item: &str) -> Option<Vec<u8>> {
        replay_line(item).map(|line| self.0.answer(&line).to_vec())
    }
}

fn flip(answer: &[u8], bits: &str) -> Option<Vec<u8>> {
    let digits = answer.strip_prefix(b"rsp\t")?.strip_suffix(b"\n")?;
    let mut bytes = up_to(digits, LONGEST_BLOCK).ok()?;
    for bit in bits.split(',') {
        let bit: usize = bit.parse().ok()?;
        *bytes.get_mut(bit / 8)? ^= 0x80 >> (bit % 8);
    }
    Some(response(&bytes))
}

fn short(rest: &str) -> Option<Vec<u8>> {
    let (index, content) = rest.split_once(' ')?;
    let mut bytes = vec![index.parse().ok().filter(|&index: &u8| index < 64)?];
    bytes.extend(u32::from_str_radix(content, 16).ok()?.to_be_bytes());
    bytes.push(crc7(&bytes) << 1 | 1);
    Some(response(&bytes))
}

fn response(bytes: &[u8]) -> Vec<u8> {
    let mut line = b"rsp\t".to_vec();
    push_hex(&mut line, bytes);
    ended(line)
}
