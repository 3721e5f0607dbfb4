//! Turns a readable description of a history (standard input) into lines of replay or the console.
//!
//! ```text
//! 17 7E00              command 17, argument in hex (0 if left out); A41 is 41
//! copy 9 17 7E00       the same frame damaged: bit 9 flipped, bit 0 is sent first
//! copy 9,11 17 7E00    several bits
//! low 17 7E00          the frame with chip select low; also low copy 9 17 7E00
//! block 5A             512 bytes 5Ah and their check
//! bad 9 5A             the same packet with bit 9 flipped
//! take                 also: over
//! 66 * take            sixty-six times
//! data 6 0104A1B2      these bytes, filled up with zeros to 6, and their check: a block of command 42
//! bad 9 6 0104A1B2     the same packet with bit 9 flipped
//! token FE block 5A    any of these packets behind a token, which the bits of bad do not count
//! token FD             a token alone
//! power 64 2 0 1       block count and start polls in decimal, CID as 30 digits or 0, flags
//! power 64 2 0 1 A1B2  the same with a password of these bytes
//! power 64 2 0 1 17 A1 the same with this length of the password, whatever its bytes
//! mem 7                block 7 of the console's memory, in decimal
//! sized 16 5A          16 bytes 5Ah, no check
//! cut 513 5A           512 bytes 5Ah and their check, cut to 513 bytes or filled up with zeros
//! raw cmd\t4000        this line; \t \r \0 \xFF and \\ stand for bytes
//! fill 1034 blk\t      this line, filled up with zeros to 1,034 bytes
//! end                  the newline of the line before is left out
//! ```
//! Text behind # and empty lines are skipped. With the argument `without-copies`, so are
//! the copies. With the argument `answers` it gives the answers of the reference card (answers.rs).

mod answers;
mod card;
#[allow(dead_code)]
mod lines;

use answers::Answers;
use card::{crc16, crc7, BLOCK, LONGEST_PASSWORD, PACKET};
use lines::{push_hex, up_to};
use std::io::{self, Write};

fn main() -> Result<(), String> {
    let argument = std::env::args().nth(1);
    let without_copies = argument.as_deref() == Some("without-copies");
    let mut answers = (argument.as_deref() == Some("answers")).then(Answers::new);
    let mut output = Vec::new();
    for (number, line) in io::stdin().lines().enumerate() {
        let line = line.map_err(|error| error.to_string())?;
        let text = line.split('#').next().unwrap_or("").trim();
        if text.is_empty() || without_copies && text.starts_with("copy ") {
            continue;
        }
        if text == "end" {
            output.pop();
            continue;
        }
        let (count, item) = match text.split_once(" * ") {
            Some((count, item)) => (count.parse().map_err(|_| format!("line {}: {line}", number + 1))?, item),
            None => (1, text),
        };
        for _ in 0..count {
            let bytes = match &mut answers {
                Some(answers) => answers.line(item),
                None => replay_line(item).map(ended),
            };
            output.extend(bytes.ok_or_else(|| format!("line {}: {line}", number + 1))?);
        }
    }
    io::stdout().write_all(&output).map_err(|error| error.to_string())
}

fn ended(mut line: Vec<u8>) -> Vec<u8> {
    line.push(b'\n');
    line
}

fn replay_line(item: &str) -> Option<Vec<u8>> {
    let (word, rest) = item.split_once(' ').unwrap_or((item, ""));
    match word {
        "raw" => unescape(rest),
        "fill" => {
            let (count, text) = rest.split_once(' ')?;
            let mut bytes = unescape(text)?;
            bytes.resize(count.parse().ok()?, b'0');
            Some(bytes)
        }
        "low" => Some([b"low", replay_line(rest)?.strip_prefix(b"cmd")?].concat()),
        "token" => led(rest),
        _ => call_line(item),
    }
}

fn call_line(item: &str) -> Option<Vec<u8>> {
    let words: Vec<&str> = item.split_whitespace().collect();
    match words.as_slice() {
        ["take" | "over"] => Some(item.into()),
        ["block", byte] => Some(line("blk", &packet(byte)?)),
        ["bad", bits, byte] => Some(line("blk", &flip(packet(byte)?, bits)?)),
        ["data", size, digits] => Some(line("blk", &data(size, digits)?)),
        ["bad", bits, size, digits] => Some(line("blk", &flip(data(size, digits)?, bits)?)),
        ["power", count, polls, cid, flags] => power([count, polls, cid, flags], "0", ""),
        ["power", count, polls, cid, flags, password] => {
            power([count, polls, cid, flags], &(password.len() / 2).to_string(), password)
        }
        ["power", count, polls, cid, flags, length, password] => {
            power([count, polls, cid, flags], length, password)
        }
        ["mem", block] => Some(line("mem", &block.parse::<u32>().ok()?.to_be_bytes())),
        ["sized", size, byte] => {
            Some(line("blk", &vec![u8::from_str_radix(byte, 16).ok()?; size.parse().ok()?]))
        }
        ["cut", size, byte] => {
            let mut bytes = packet(byte)?.to_vec();
            bytes.resize(size.parse().ok()?, 0);
            Some(line("blk", &bytes))
        }
        ["copy", bits, index] => Some(line("cmd", &flip(frame(index, "0")?, bits)?)),
        ["copy", bits, index, argument] => Some(line("cmd", &flip(frame(index, argument)?, bits)?)),
        [index] => Some(line("cmd", &frame(index, "0")?)),
        [index, argument] => Some(line("cmd", &frame(index, argument)?)),
        _ => None,
    }
}

fn frame(index: &str, argument: &str) -> Option<[u8; 6]> {
    let index: u8 = index.trim_start_matches('A').parse().ok().filter(|&index| index < 64)?;
    let [a, b, c, d] = u32::from_str_radix(argument, 16).ok()?.to_be_bytes();
    let mut frame = [0x40 | index, a, b, c, d, 0];
    frame[5] = crc7(&frame[..5]) << 1 | 1;
    Some(frame)
}

fn power([count, polls, cid, flags]: [&str; 4], length: &str, password: &str) -> Option<Vec<u8>> {
    let count: u32 = count.parse().ok()?;
    let polls: u8 = polls.parse().ok()?;
    let cid = u128::from_str_radix(cid, 16).ok().filter(|_| cid == "0" || cid.len() == 30)?;
    let flags = u8::from_str_radix(flags, 16).ok()?;
    let length: u8 = length.parse().ok()?;
    let mut line =
        format!("power\t{count:08X}\t{polls:02X}\t{cid:030X}\t{flags:02X}\t{length:02X}\t").into_bytes();
    push_hex(&mut line, &filled(password, LONGEST_PASSWORD)?);
    Some(line)
}

fn packet(byte: &str) -> Option<[u8; PACKET]> {
    let mut packet = [u8::from_str_radix(byte, 16).ok()?; PACKET];
    let check = crc16(&packet[..BLOCK]);
    packet[BLOCK..].copy_from_slice(&check.to_be_bytes());
    Some(packet)
}

/// A block of SPI mode: its token and, if there is one, a packet.
fn led(rest: &str) -> Option<Vec<u8>> {
    let (token, item) = rest.split_once(' ').map_or((rest, None), |(token, item)| (token, Some(item)));
    let mut bytes = line("blk", &[u8::from_str_radix(token, 16).ok()?]);
    if let Some(item) = item {
        bytes.extend(replay_line(item)?.strip_prefix(b"blk\t")?);
    }
    Some(bytes)
}

/// A block of command 42.
fn data(size: &str, digits: &str) -> Option<Vec<u8>> {
    let mut bytes = filled(digits, size.parse().ok()?)?;
    bytes.extend(crc16(&bytes).to_be_bytes());
    Some(bytes)
}

/// The bytes of the digits and zeros behind them.
fn filled(digits: &str, size: usize) -> Option<Vec<u8>> {
    let mut bytes = up_to(digits.as_bytes(), size).ok()?;
    bytes.resize(size, 0);
    Some(bytes)
}

fn flip<T: AsMut<[u8]>>(mut bytes: T, bits: &str) -> Option<T> {
    for bit in bits.split(',') {
        let bit: usize = bit.parse().ok()?;
        *bytes.as_mut().get_mut(bit / 8)? ^= 0x80 >> (bit % 8);
    }
    Some(bytes)
}

fn line(word: &str, bytes: &[u8]) -> Vec<u8> {
    let digits: String = bytes.iter().map(|byte| format!("{byte:02X}")).collect();
    format!("{word}\t{digits}").into_bytes()
}

fn unescape(text: &str) -> Option<Vec<u8>> {
    let mut bytes = Vec::new();
    let mut rest = text.bytes();
    while let Some(byte) = rest.next() {
        bytes.push(match byte {
            b'\\' => match rest.next()? {
                b't' => b'\t',
                b'r' => b'\r',
                b'0' => 0,
                b'\\' => b'\\',
                b's' => b' ',
                b'x' => {
                    let digits = [rest.next()?, rest.next()?];
                    u8::from_str_radix(std::str::from_utf8(&digits).ok()?, 16).ok()?
                }
                _ => return None,
            },
            _ => byte,
        });
    }
    Some(bytes)
}
