//! What the differential tester has reached of blocks in SPI mode: tokens, checks, sizes, and how transfers end.

use crate::calls::{is_good, Call};
use crate::card::{Card, CrcStatus, Mode, Transfer, ADDRESS_ERROR, OUT_OF_RANGE, WP_VIOLATION};
use crate::host::Step;
use crate::lock_coverage::LockCoverage;
use crate::spi_coverage::{place, wrong, PLACES};
use crate::tally::{names, Tally};

#[derive(Default)]
pub struct SpiBlockCoverage {
    tally: Tally,
    lock: LockCoverage,
}

const STOP_TRAN: u8 = 0xFD;

/// By its size, its token and its check, whether they count or not.
pub fn block_name(block: &[u8], card: &Card) -> &'static str {
    match block {
        [STOP_TRAN] => "stop token",
        [_] => "lone byte",
        _ if block.len() != card.block_size() => "other size",
        _ => match (block[0] == card.start_token(), is_good(&block[1..])) {
            (true, true) => "block",
            (true, false) => "bad block",
            (false, true) => "token",
            (false, false) => "bad, token",
        },
    }
}

impl SpiBlockCoverage {
    pub fn call(&mut self, call: &Call, step: &Step) {
        let (before, after) = (&step.before, &step.after);
        let checks = if before.mode == (Mode::Spi { crc_on: true }) { "on" } else { "off" };
        match call {
            Call::Blk(block) if before.transfer.is_write() => self.block(block, step, checks),
            Call::Take => self.take(step),
            Call::Cmd(frame, ..) => self.register(frame, before),
            _ => {}
        }
        if before.transfer != Transfer::None && after.transfer == Transfer::None {
            let by = match call {
                Call::Cmd(frame, ..) => (frame[0] & 0x3F).to_string(),
                Call::Power(_) => "power-up".into(),
                Call::Blk(block) if block.len() == 1 => "stop token".into(),
                _ => return,
            };
            self.tally.add(ENDED[place(before)], by);
        }
    }

    fn block(&mut self, block: &[u8], step: &Step, checks: &str) {
        let before = &step.before;
        let name = block_name(block, before);
        let subject = BLOCKS[place(before)];
        let size = block.len() as i64 - before.block_size() as i64;
        let kind = match (name, step.crc_status) {
            ("other size", _) if size.abs() < 2 => format!("size {size:+}"),
            ("other size", _) if block.is_empty() => "empty".into(),
            ("other size", _) => "another size".into(),
            (_, Some(CrcStatus::Accepted)) => format!("{name}, checks {checks}: 05"),
            (_, Some(CrcStatus::Rejected)) => format!("{name}, checks {checks}: 0B"),
            (_, Some(CrcStatus::Silence)) => format!("{name}, checks {checks}: silence"),
            (_, None) => format!("{name}: refused"),
        };
        self.tally.add(subject, kind);
        if before.transfer == Transfer::LockUnlock && matches!(name, "block" | "bad block") {
            self.lock.block(&block[1..], step);
        }
        if let Some(why) = held(step) {
            self.tally.add("25 held", why);
        }
    }

    fn take(&mut self, step: &Step) {
        let (before, after) = (&step.before, &step.after);
        let is_held = |card: &Card| matches!(card.transfer, Transfer::Read { held: true, .. });
        let new_bits = after.status & !before.status;
        let kind = match before.transfer {
            _ if is_held(before) => "while held",
            _ if is_held(after) && new_bits == OUT_OF_RANGE => "held at capacity",
            _ if is_held(after) && new_bits == ADDRESS_ERROR => "held at a boundary",
            _ if is_held(after) => "held, bit already kept",
            Transfer::Read { multiple: false, .. } if before.block_len == 512 => "17",
            Transfer::Read { multiple: false, .. } => "17, other length",
            Transfer::Read { .. } if before.block_len == 512 => "18",
            Transfer::Read { .. } => "18, other length",
            Transfer::NumWrBlocks if before.num_wr_blocks > 1 => "A22, several",
            transfer => register(transfer).unwrap_or("refused"),
        };
        self.tally.add("take", kind);
    }

    /// A whole frame while a register is due.
    fn register(&mut self, frame: &[u8; 6], before: &Card) {
        let Some(register) = register(before.transfer) else {
            return;
        };
        let command = match frame[0] & 0x3F {
            _ if wrong(frame, before.mode).is_some() => return,
            0 => "0",
            12 => "12",
            13 => "13",
            _ => "others",
        };
        self.tally.add("met a register", format!("{register}: {command}"));
    }

    pub fn print(&self) {
        println!("\nblocks in SPI mode");
        let met = REGISTERS
            .iter()
            .flat_map(|register| ["0", "12", "13", "others"].map(|command| format!("{register}: {command}")));
        let single: Vec<&str> = BOTH.into_iter().chain(SINGLE).collect();
        let multiple: Vec<&str> = BOTH.into_iter().chain(MULTIPLE).collect();
        let held: Vec<&str> = HELD.into_iter().chain(["size -1", "size +1", "another size"]).collect();
        self.tally.print(&[
            ("24's transfer", names(&single)),
            ("42's transfer", names(&single)),
            ("25's transfer", names(&multiple)),
            ("25's transfer, held", names(&held)),
            ("25 held", names(&["by a wrong check", "at capacity", "by protection"])),
            ("take", names(&TAKES)),
            ("met a register", met.collect()),
            ("24 ended by", names(&["0", "12", "power-up"])),
            ("25 ended by", names(&["0", "12", "stop token", "power-up"])),
            ("held 25 ended by", names(&["0", "12", "stop token", "power-up"])),
            ("42 ended by", names(&["0", "12", "power-up"])),
            ("17 ended by", names(&["0", "12", "power-up"])),
            ("18 ended by", names(&["0", "12", "power-up"])),
            ("held 18 ended by", names(&["0", "12", "power-up"])),
            ("register ended by", names(&["0", "12", "power-up"])),
        ]);
        self.lock.print_blocks();
    }
}

/// In the order of the places.
const ENDED: [&str; PLACES.len()] = [
    "",
    "",
    "17 ended by",
    "18 ended by",
    "held 18 ended by",
    "register ended by",
    "24 ended by",
    "25 ended by",
    "held 25 ended by",
    "42 ended by",
    "",
];
const BLOCKS: [&str; PLACES.len()] =
    ["", "", "", "", "", "", "24's transfer", "25's transfer", "25's transfer, held", "42's transfer", ""];
const BOTH: [&str; 12] = [
    "block, checks on: 05",
    "block, checks off: 05",
    "bad block, checks on: 0B",
    "bad block, checks off: 05",
    "token, checks on: silence",
    "token, checks off: silence",
    "bad, token, checks on: silence",
    "bad, token, checks off: silence",
    "size -1",
    "size +1",
    "another size",
    "empty",
];
const SINGLE: [&str; 2] = ["stop token: refused", "lone byte: refused"];
const MULTIPLE: [&str; 4] = [
    "stop token, checks on: silence",
    "stop token, checks off: silence",
    "lone byte, checks on: silence",
    "lone byte, checks off: silence",
];
const HELD: [&str; 8] = [
    "block, checks on: silence",
    "block, checks off: silence",
    "bad block, checks on: silence",
    "bad block, checks off: silence",
    "token, checks on: silence",
    "token, checks off: silence",
    "stop token, checks on: silence",
    "lone byte, checks on: silence",
];
const TAKES: [&str; 15] = [
    "17",
    "17, other length",
    "18",
    "18, other length",
    "30",
    "A13",
    "A22",
    "A22, several",
    "A51",
    "9",
    "10",
    "held at capacity",
    "held at a boundary",
    "while held",
    "refused",
];

const REGISTERS: [&str; 6] = ["30", "A13", "A22", "A51", "9", "10"];

fn register(transfer: Transfer) -> Option<&'static str> {
    Some(match transfer {
        Transfer::WriteProt { .. } => "30",
        Transfer::SdStatus => "A13",
        Transfer::NumWrBlocks => "A22",
        Transfer::Scr => "A51",
        Transfer::Csd => "9",
        Transfer::Cid => "10",
        _ => return None,
    })
}

fn held(step: &Step) -> Option<&'static str> {
    let is_held = |card: &Card| matches!(card.transfer, Transfer::Write { held: true, .. });
    if is_held(&step.before) || !is_held(&step.after) {
        return None;
    }
    Some(match step.after.status & !step.before.status {
        _ if step.crc_status == Some(CrcStatus::Rejected) => "by a wrong check",
        OUT_OF_RANGE => "at capacity",
        WP_VIOLATION => "by protection",
        _ => "bit already kept",
    })
}
