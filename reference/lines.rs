//! The lines of the replay program and of the console, on a card and its memory.

use crate::card::{
    Card, Cid, CrcStatus, Password, Refusal, Settings, BLOCK, LONGEST_PASSWORD, PACKET, SPI_BLOCK,
};
use std::io::Write;

/// Blocks of the console's memory.
pub const CONSOLE_BLOCKS: u32 = 2048;
const REPLAY_BLOCKS: u32 = 64;
/// Bytes of the longest block that a console line can hand in.
pub const LONGEST_BLOCK: usize = 520;
pub const LONGEST_LINE: usize = "blk\t".len() + 2 * LONGEST_BLOCK;

pub struct Bench {
    card: Card,
    memory: Vec<u8>,
    is_console: bool,
    out: [u8; SPI_BLOCK],
    text: Vec<u8>,
}

impl Bench {
    pub fn replay() -> Bench {
        Bench::new(REPLAY_BLOCKS, false)
    }

    pub fn console() -> Bench {
        Bench::new(CONSOLE_BLOCKS, true)
    }

    fn new(blocks: u32, is_console: bool) -> Bench {
        let memory = vec![0; blocks as usize * BLOCK];
        let settings = replay_settings();
        let card = Card::power_up(settings, lent(&memory, settings.block_count))
            .expect("the settings of replay are allowed");
        Bench { card, memory, is_console, out: [0; SPI_BLOCK], text: Vec::with_capacity(LONGEST_LINE + 1) }
    }

    /// The answer line, newline included.
    pub fn answer(&mut self, line: &[u8]) -> &[u8] {
        self.text.clear();
        if let Err(refusal) = self.call(line) {
            self.text.clear();
            let _ = write!(self.text, "ref\t{}", refusal as u8);
        }
        self.text.push(b'\n');
        &self.text
    }

    /// A line that cannot be read is refused as a wrong size is.
    fn call(&mut self, line: &[u8]) -> Result<(), Refusal> {
        let fields: Vec<&[u8]> = line.split(|&byte| byte == b'\t').collect();
        match fields.as_slice() {
            [b"cmd", digits] => self.command(&sized(digits, 6)?, false),
            [b"low", digits] if self.is_console => self.command(&sized(digits, 6)?, true),
            [b"blk", digits] if self.is_console => self.block(&up_to(digits, LONGEST_BLOCK)?),
            [b"blk", digits] => self.block(&sized(digits, PACKET)?),
            [b"take"] => self.take(),
            [b"over"] => self.over(),
            [b"power", count, polls, cid, flags, length, password] if self.is_console => {
                let settings = Settings {
                    block_count: number(count, 4)?,
                    start_polls: number(polls, 1)? as u8,
                    cid: cid_of(&sized(cid, 15)?),
                    password: password_of(number(length, 1)? as u8, &sized(password, LONGEST_PASSWORD)?),
                    ..protection(number(flags, 1)?)?
                };
                self.power(settings)
            }
            [b"mem", block] if self.is_console => self.show(number(block, 4)?),
            _ => Err(Refusal::Size),
        }
    }

    fn command(&mut self, frame: &[u8], low: bool) -> Result<(), Refusal> {
        let memory = lent_mut(&mut self.memory, self.card.settings.block_count);
        let length = self.card.command_frame(frame, low, memory, &mut self.out)?;
        self.say(b"rsp", length);
        Ok(())
    }

    fn block(&mut self, block: &[u8]) -> Result<(), Refusal> {
        let memory = lent_mut(&mut self.memory, self.card.settings.block_count);
        let status = self.card.block_in(block, memory)?;
        if let (true, Some(token)) = (self.card.mode.is_spi(), status.token()) {
            self.out[0] = token;
            self.say(b"rsp", 1);
            return Ok(());
        }
        self.text.extend_from_slice(match status {
            CrcStatus::Silence => b"none",
            CrcStatus::Accepted => b"ack",
            CrcStatus::Rejected => b"nak",
        });
        Ok(())
    }

    fn take(&mut self) -> Result<(), Refusal> {
        let length = self.card.take(lent(&self.memory, self.card.settings.block_count), &mut self.out)?;
        self.say(b"blk", length);
        Ok(())
    }

    fn over(&mut self) -> Result<(), Refusal> {
        self.card.busy_over(lent(&self.memory, self.card.settings.block_count))?;
        self.text.extend_from_slice(b"none");
        Ok(())
    }

    /// A refused power-up leaves the card that was there.
    fn power(&mut self, settings: Settings) -> Result<(), Refusal> {
        self.card = Card::power_up(settings, lent(&self.memory, settings.block_count))?;
        self.text.extend_from_slice(b"none");
        Ok(())
    }

    fn show(&mut self, block: u32) -> Result<(), Refusal> {
        if block >= CONSOLE_BLOCKS {
            return Err(Refusal::Size);
        }
        self.text.extend_from_slice(b"mem\t");
        push_hex(&mut self.text, &self.memory[block as usize * BLOCK..][..BLOCK]);
        Ok(())
    }

    fn say(&mut self, word: &[u8], length: usize) {
        if length == 0 {
            self.text.extend_from_slice(b"none");
            return;
        }
        self.text.extend_from_slice(word);
        self.text.push(b'\t');
        push_hex(&mut self.text, &self.out[..length]);
    }
}

/// The card that both programs begin with.
pub fn replay_settings() -> Settings {
    Settings {
        block_count: REPLAY_BLOCKS,
        start_polls: 0,
        cid: Cid::default(),
        perm_write_protect: false,
        tmp_write_protect: false,
        password: Password::default(),
    }
}

/// What a call is lent for a card of so many blocks: no more than there is.
pub fn lent(memory: &[u8], blocks: u32) -> &[u8] {
    &memory[..memory.len().min(blocks as usize * BLOCK)]
}

pub fn lent_mut(memory: &mut [u8], blocks: u32) -> &mut [u8] {
    let size = memory.len().min(blocks as usize * BLOCK);
    &mut memory[..size]
}

/// The fields of the fifteen bytes before the register's check; the four reserved bits are skipped.
pub fn cid_of(register: &[u8]) -> Cid {
    let field = |from: usize, to: usize| {
        register[from..to].iter().fold(0, |value, &byte| value << 8 | u32::from(byte))
    };
    Cid {
        mid: register[0],
        oid: field(1, 3) as u16,
        pnm: std::array::from_fn(|i| register[3 + i]),
        prv: register[8],
        psn: field(9, 13),
        mdt: (field(13, 15) & 0x0FFF) as u16,
    }
}

/// As it stands on the line: the card judges the length, and what is behind it.
fn password_of(length: u8, field: &[u8]) -> Password {
    Password { bytes: std::array::from_fn(|i| field[i]), length }
}

/// Settings that say no more than which protection there is.
fn protection(flags: u32) -> Result<Settings, Refusal> {
    if flags > 3 {
        return Err(Refusal::Size);
    }
    Ok(Settings {
        perm_write_protect: flags & 1 != 0,
        tmp_write_protect: flags & 2 != 0,
        ..replay_settings()
    })
}

const HEX: &[u8; 16] = b"0123456789ABCDEF";

pub fn push_hex(text: &mut Vec<u8>, bytes: &[u8]) {
    for byte in bytes {
        text.push(HEX[usize::from(byte >> 4)]);
        text.push(HEX[usize::from(byte & 15)]);
    }
}

fn number(digits: &[u8], size: usize) -> Result<u32, Refusal> {
    Ok(sized(digits, size)?.iter().fold(0, |value, &byte| value << 8 | u32::from(byte)))
}

fn sized(digits: &[u8], size: usize) -> Result<Vec<u8>, Refusal> {
    up_to(digits, size).and_then(|bytes| if bytes.len() == size { Ok(bytes) } else { Err(Refusal::Size) })
}

pub fn up_to(digits: &[u8], size: usize) -> Result<Vec<u8>, Refusal> {
    if digits.len() % 2 != 0 || digits.len() > 2 * size {
        return Err(Refusal::Size);
    }
    digits
        .chunks_exact(2)
        .map(|pair| Some(hex_digit(pair[0])? << 4 | hex_digit(pair[1])?))
        .collect::<Option<_>>()
        .ok_or(Refusal::Size)
}

fn hex_digit(digit: u8) -> Option<u8> {
    match digit {
        b'0'..=b'9' => Some(digit - b'0'),
        b'A'..=b'F' => Some(digit - b'A' + 10),
        _ => None,
    }
}
