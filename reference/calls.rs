//! The calls that the differential tester makes, their lines, and random ones of each kind.

use crate::card::{crc16, crc7, Password, Settings, BLOCK, PACKET};
use crate::chance::Rng;
use crate::lines::{cid_of, push_hex, replay_settings, CONSOLE_BLOCKS, LONGEST_BLOCK};
use crate::lock_calls::settings_password;

#[derive(Clone, Copy, PartialEq)]
pub enum Frame {
    Sound,
    Damaged,
    Noise,
}

/// The fields of a `power` line that can be read.
#[derive(Clone, Copy)]
pub struct Power {
    pub count: u32,
    pub polls: u8,
    pub cid: [u8; 15],
    pub flags: u8,
    pub password: Password,
}

pub enum Call {
    /// Chip select is low or not.
    Cmd([u8; 6], Frame, bool),
    /// Of any size, which the card judges.
    Blk(Vec<u8>),
    Take,
    Over,
    Power(Power),
    Mem(u32),
    Unreadable(Vec<u8>),
}

impl Call {
    pub fn command(index: u8, argument: u32) -> Call {
        let mut frame = [0x40 | index, 0, 0, 0, 0, 0];
        frame[1..5].copy_from_slice(&argument.to_be_bytes());
        frame[5] = crc7(&frame[..5]) << 1 | 1;
        Call::Cmd(frame, Frame::Sound, false)
    }

    /// With chip select low or high, if it is a frame.
    pub fn selected(self, is_low: bool) -> Call {
        match self {
            Call::Cmd(frame, kind, _) => Call::Cmd(frame, kind, is_low),
            call => call,
        }
    }

    pub fn line(&self) -> Vec<u8> {
        match self {
            Call::Cmd(frame, _, false) => line(b"cmd", &[frame]),
            Call::Cmd(frame, _, true) => line(b"low", &[frame]),
            Call::Blk(packet) => line(b"blk", &[packet]),
            Call::Take => b"take".to_vec(),
            Call::Over => b"over".to_vec(),
            Call::Power(power) => power.line(),
            Call::Mem(block) => line(b"mem", &[&block.to_be_bytes()]),
            Call::Unreadable(line) => line.clone(),
        }
    }

    pub fn name(&self) -> String {
        match self {
            Call::Cmd(frame, Frame::Sound, _) => {
                let argument = u32::from_be_bytes([frame[1], frame[2], frame[3], frame[4]]);
                format!("{} {argument:X}h", frame[0] & 0x3F)
            }
            Call::Cmd(_, Frame::Damaged, _) => "damaged".into(),
            Call::Cmd(_, Frame::Noise, _) => "noise".into(),
            Call::Blk(packet) if is_good(packet) || packet.get(1..).is_some_and(is_good) => {
                format!("block of {}", packet.len())
            }
            Call::Blk(packet) => format!("bad block of {}", packet.len()),
            Call::Take => "take".into(),
            Call::Over => "over".into(),
            Call::Power(power) => format!("power {}", power.count),
            Call::Mem(block) => format!("mem {block}"),
            Call::Unreadable(_) => "unreadable".into(),
        }
    }
}

impl Power {
    pub fn settings(&self) -> Settings {
        Settings {
            block_count: self.count,
            start_polls: self.polls,
            cid: cid_of(&self.cid),
            perm_write_protect: self.flags & 1 != 0,
            tmp_write_protect: self.flags & 2 != 0,
            password: self.password,
        }
    }

    fn line(&self) -> Vec<u8> {
        let (polls, flags, length) = ([self.polls], [self.flags], [self.password.length]);
        let count = self.count.to_be_bytes();
        line(b"power", &[&count, &polls, &self.cid, &flags, &length, &self.password.bytes])
    }

    pub fn random(rng: &mut Rng) -> Power {
        let flags = rng.weighted(&[(58, 0), (14, 1), (14, 2), (14, 3)]);
        let password = settings_password(rng);
        Power { count: block_count(rng), polls: start_polls(rng), cid: cid(rng), flags, password }
    }
}

pub fn replay_blocks() -> u32 {
    replay_settings().block_count
}

pub fn is_good(packet: &[u8]) -> bool {
    let Some((payload, check)) = packet.split_last_chunk() else {
        return false;
    };
    crc16(payload).to_be_bytes() == *check
}

fn line(word: &[u8], fields: &[&[u8]]) -> Vec<u8> {
    let mut line = word.to_vec();
    for field in fields {
        line.push(b'\t');
        push_hex(&mut line, field);
    }
    line
}

/// Whether a line has the form of a call, whatever its numbers.
pub fn is_readable(line: &[u8], is_console: bool) -> bool {
    let mut fields = line.split(|&byte| byte == b'\t');
    let word = fields.next().unwrap_or(b"");
    let fields: Vec<&[u8]> = fields.collect();
    if !fields.concat().iter().all(|digit| matches!(digit, b'0'..=b'9' | b'A'..=b'F')) {
        return false;
    }
    let sizes: Vec<usize> = fields.iter().map(|field| field.len()).collect();
    match (word, sizes.as_slice()) {
        (b"take" | b"over", []) | (b"cmd", [12]) | (b"blk", [1028]) => true,
        (b"blk", [size]) => is_console && size % 2 == 0 && *size <= 2 * LONGEST_BLOCK,
        (b"power", [8, 2, 30, 2, 2, 32]) => is_console && matches!(fields[3], b"00" | b"01" | b"02" | b"03"),
        (b"mem", [8]) | (b"low", [12]) => is_console,
        _ => false,
    }
}

fn block_count(rng: &mut Rng) -> u32 {
    const SMALL: [u32; 17] = [4, 8, 12, 16, 20, 24, 28, 32, 36, 40, 48, 60, 64, 68, 72, 96, 100];
    const LARGE: [u32; 11] = [128, 256, 260, 508, 512, 1020, 1024, 1028, 2040, 2044, 2048];
    const NONE: [u32; 16] = [0, 1, 2, 3, 5, 6, 7, 9, 30, 33, 62, 63, 65, 2045, 2046, 2047];
    const ABOVE: [u32; 14] = [
        2049,
        2050,
        2052,
        4096,
        65_535,
        65_536,
        65_540,
        // so many bytes are 2,048 more than a full word
        0x0080_0004,
        0x0080_0000,
        0x4000_0040,
        0x8000_0000,
        0x8000_0004,
        0xFFFF_FFFC,
        0xFFFF_FFFF,
    ];
    match rng.below(100) {
        0..62 => rng.pick(&SMALL),
        62..68 => replay_blocks(),
        68..74 => rng.pick(&LARGE),
        74..78 => CONSOLE_BLOCKS,
        78..86 => 4 * (1 + rng.below(u64::from(CONSOLE_BLOCKS / 4)) as u32),
        86..92 => rng.pick(&NONE),
        92..93 => rng.below(u64::from(CONSOLE_BLOCKS)) as u32,
        93..99 => rng.pick(&ABOVE),
        _ => rng.word(),
    }
}

fn start_polls(rng: &mut Rng) -> u8 {
    match rng.below(100) {
        0..45 => 0,
        45..63 => 1,
        63..75 => 2,
        75..83 => 3,
        83..94 => 4 + rng.below(12) as u8,
        94..98 => rng.pick(&[16, 16, 16, 17, 128, 255]),
        _ => rng.byte(),
    }
}

fn cid(rng: &mut Rng) -> [u8; 15] {
    let mut cid = [0; 15];
    match rng.below(10) {
        0..2 => {}
        2 => cid.fill(0xFF),
        3 => cid[rng.below(15) as usize] = rng.byte(),
        _ => cid.fill_with(|| rng.byte()),
    }
    if rng.chance(40) {
        cid[13] &= 0x0F;
    }
    cid
}

pub fn block_len(rng: &mut Rng) -> u32 {
    match rng.below(100) {
        0..55 => 512,
        55..90 => rng.pick(&[
            0,
            1,
            2,
            128,
            256,
            300,
            510,
            511,
            512,
            513,
            1024,
            0x0001_0000,
            0x0001_0200,
            0x8000_0200,
            u32::MAX,
        ]),
        90..97 => 1 + rng.below(512) as u32,
        _ => rng.word(),
    }
}

pub fn window(rng: &mut Rng) -> u32 {
    const OUTSIDE: u32 = 0x0000_7FFF;
    let high = rng.pick(&[0, 0, 0, 0x4000_0000, 0xFF00_0000, 0x8000_0000]);
    high | match rng.below(100) {
        0..55 => 0x00FF_8000,
        55..72 => 0,
        72..85 => 1 << (15 + rng.below(9)),
        85..88 => 0x00FF_FFFF,
        88..92 => 1 << (15 + rng.below(9)) | rng.word() & OUTSIDE,
        92..93 => rng.pick(&[1, 0x80, 0x4000, OUTSIDE]),
        _ => 0x0010_0000 | rng.word() & 0x00FF_FFFF,
    }
}

pub fn block(rng: &mut Rng) -> Call {
    let mut payload = vec![0; BLOCK];
    match rng.below(10) {
        0 => payload.fill(0xFF),
        1 => payload.fill(rng.byte()),
        2 => payload[rng.below(512) as usize] = rng.byte(),
        3 => {}
        _ => payload.fill_with(|| rng.byte()),
    }
    packet(rng, payload)
}

/// The payload and its check, now and then damaged.
pub fn packet(rng: &mut Rng, payload: Vec<u8>) -> Call {
    let check = crc16(&payload);
    let any = rng.byte();
    let mut packet = payload;
    packet.extend(match rng.below(100) {
        0..1 => check.to_le_bytes(),
        1..2 => (!check).to_be_bytes(),
        2..3 => [any; 2],
        _ => check.to_be_bytes(),
    });
    match rng.below(100) {
        0..5 => flip(rng, &mut packet, 1),
        5..7 => flip(rng, &mut packet, 2),
        _ => {}
    }
    Call::Blk(packet)
}

/// A block of another size than that of memory: a good one cut or drawn out, or noise.
pub fn sized_block(rng: &mut Rng) -> Call {
    let size = match rng.below(10) {
        0..8 => rng.pick(&[0, 1, 2, 3, 16, 256, 511, 512, 513, 515, 516, 517, 518, 519, 520]),
        _ => rng.below(LONGEST_BLOCK as u64 + 1) as usize,
    };
    let mut packet = match block(rng) {
        Call::Blk(packet) if rng.chance(80) => packet,
        _ => (0..PACKET).map(|_| rng.byte()).collect(),
    };
    packet.resize(if size == PACKET { BLOCK } else { size }, rng.pick(&[0, 0xFF]));
    Call::Blk(packet)
}

pub fn noise(rng: &mut Rng) -> Call {
    let mut frame = [0; 6];
    match rng.below(5) {
        0 => {}
        1 => frame.fill(0xFF),
        _ => frame.fill_with(|| rng.byte()),
    }
    if rng.chance(40) {
        frame[0] = frame[0] & 0x3F | 0x40;
    }
    Call::Cmd(frame, Frame::Noise, false)
}

pub fn damage(rng: &mut Rng, call: Call) -> Call {
    let Call::Cmd(mut frame, _, is_low) = call else {
        return call;
    };
    match rng.below(10) {
        0..4 => flip(rng, &mut frame, 1),
        4..7 => flip(rng, &mut frame, 2),
        7..9 => burst(rng, &mut frame, 7),
        _ => burst(rng, &mut frame, 48),
    }
    Call::Cmd(frame, Frame::Damaged, is_low)
}

pub fn flip(rng: &mut Rng, bytes: &mut [u8], count: usize) {
    for _ in 0..count {
        let bit = rng.below(8 * bytes.len() as u64) as usize;
        bytes[bit / 8] ^= 0x80 >> (bit % 8);
    }
}

/// Any alteration of neighbouring bits, the first of them for sure.
fn burst(rng: &mut Rng, frame: &mut [u8; 6], width: u64) {
    let width = 1 + rng.below(width);
    let first = rng.below(49 - width);
    for bit in (first..first + width).filter(|&bit| bit == first || rng.chance(50)).collect::<Vec<_>>() {
        frame[bit as usize / 8] ^= 0x80 >> (bit % 8);
    }
}

const STRANGE: &[u8] = b"abcdefgG \r\t-.+\"\\\0\x01\x7F\x80\xC3\xFF";

const WRONG: [&[u8]; 50] = [
    b"cmd",
    b"blk",
    b"cmd\t",
    b"blk\t",
    b"TAKE",
    b"take\t",
    b"over\t00",
    b"none",
    b"cmd\t400000000095\t",
    b"blk\t400000000095",
    b"rsp\t400000000095",
    b"cmd 400000000095",
    b"cmd\t40000000009",
    b"cmd\t4000000000095",
    b"cmd\t40000000009500",
    b"cmd\t0x0000000095",
    b"cmd\t\t400000000095",
    b"low",
    b"low\t",
    b"low\t400000000095",
    b"low\t40000000009",
    b"low\t400000000095\t",
    b"low 400000000095",
    b"LOW\t400000000095",
    b"ref\t1",
    b"#",
    b"take take",
    b"mem",
    b"mem\t",
    b"mem\t0",
    b"mem\t0000000",
    b"mem\t00000000",
    b"mem\t000000000",
    b"mem\t0000000000",
    b"mem\t00000000\t",
    b"mem\t00000000\t00000001",
    b"mem 00000000",
    b"power",
    b"power\t",
    b"power\t00000040",
    b"power\t00000040\t00",
    b"power\t00000040\t00\t000000000000000000000000000000",
    b"power\t00000040\t00\t000000000000000000000000000000\t00",
    b"power\t00000040\t00\t000000000000000000000000000000\t00\t",
    b"power\t00000040\t00\t000000000000000000000000000000\t00\t00",
    b"power\t00000040\t00\t000000000000000000000000000000\t00\t00\t",
    b"power\t00000040\t00\t000000000000000000000000000000\t00\t00\t0000000000000000000000000000000",
    b"power\t00000040\t00\t000000000000000000000000000000\t00\t00000000000000000000000000000000",
    b"power\t00000040\t00\t\t00\t00\t00000000000000000000000000000000",
    b"power\t40\t00\t000000000000000000000000000000\t00\t00\t00000000000000000000000000000000",
];

/// Makes a line of a call into one that is not; now and then it still is one.
pub fn spoil(rng: &mut Rng, mut line: Vec<u8>) -> Vec<u8> {
    let place = rng.below(line.len() as u64) as usize;
    match rng.below(16) {
        0 => line.clear(),
        1 | 2 => line[place] = rng.pick(STRANGE),
        3 => {
            line.remove(place);
        }
        4 => line.insert(place, rng.pick(STRANGE)),
        5 => line.push(rng.pick(b"\t\r 0A\0")),
        6 => line.push(b'\r'),
        7 => line.insert(0, rng.pick(b"\t \x0B\x0C")),
        8 => line = line.iter().map(|c| c.to_ascii_uppercase()).collect(),
        9 => line.extend((0..2 * (1 + rng.below(3000))).map(|_| b'0')),
        10 => line = (0..rng.below(60)).map(|_| rng.byte()).map(|c| if c == b'\n' { 0 } else { c }).collect(),
        11 => line = line.to_ascii_lowercase(),
        12..15 => spoil_fields(rng, &mut line),
        _ => line = rng.pick(&WRONG).to_vec(),
    }
    line
}

fn spoil_fields(rng: &mut Rng, line: &mut Vec<u8>) {
    let mut fields: Vec<Vec<u8>> = line.split(|&byte| byte == b'\t').map(<[u8]>::to_vec).collect();
    let place = rng.below(fields.len() as u64) as usize;
    match rng.below(6) {
        0 => {
            fields.remove(place);
        }
        1 => fields.insert(place, Vec::new()),
        2 => fields.insert(place, fields[place].clone()),
        3 => fields[place].clear(),
        4 => fields[place].extend(*b"00"),
        _ => {
            let size = fields[place].len();
            fields[place].truncate(size.saturating_sub(2));
        }
    }
    *line = fields.join(&b'\t');
}
