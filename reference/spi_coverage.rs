//! What the differential tester has reached of SPI mode: how it was chosen, calls by what was open, answers.

use crate::calls::Call;
use crate::card::spi::Phase;
use crate::card::{crc7, Card, Mode, State, Transfer};
use crate::coverage::{list, state_name, STATES};
use crate::host::{Step, APPLICATION};
use crate::spi_answer_coverage::SpiAnswerCoverage;
use crate::spi_block_coverage::{block_name, SpiBlockCoverage};
use crate::spi_command_coverage::SpiCommandCoverage;
use crate::tally::{names, Tally};
use std::collections::BTreeMap;

/// What the card has open, in the columns of the table.
pub const PLACES: [&str; 11] =
    ["idle", "ready", "17", "18", "18 held", "register", "24", "25", "25 held", "42", "busy"];

const FRAMES: [&str; 5] = ["wrong start", "wrong end", "wrong, on", "wrong, off", "wrong 8, off"];
const OTHERS: [&str; 13] = [
    "block",
    "bad block",
    "token",
    "bad, token",
    "stop token",
    "lone byte",
    "other size",
    "take",
    "over",
    "unreadable",
    "power",
    "power refused",
    "mem",
];
/// Held when SPI is chosen, and when 0 comes in it. Others show in the response that they come with.
const HELD_IN_SD: [&str; 7] = ["31", "30", "26", "24", "23", "22", "13"];
const HELD_IN_SPI: [&str; 6] = ["31", "30", "27", "26", "24", "15"];

#[derive(Default)]
pub struct SpiCoverage {
    rows: BTreeMap<String, [u64; PLACES.len()]>,
    tally: Tally,
    commands: SpiCommandCoverage,
    blocks: SpiBlockCoverage,
    answers: SpiAnswerCoverage,
    calls: [u64; 2],
}

pub fn place(card: &Card) -> usize {
    let name = match (card.transfer, card.phase()) {
        (Transfer::Read { held: true, .. }, _) => "18 held",
        (Transfer::Read { multiple: true, .. }, _) => "18",
        (Transfer::Read { .. }, _) => "17",
        (Transfer::Write { held: true, .. }, _) => "25 held",
        (Transfer::Write { multiple: true, .. }, _) => "25",
        (Transfer::Write { .. }, _) => "24",
        (Transfer::LockUnlock, _) => "42",
        (_, Phase::Open) => "register",
        (_, Phase::Idle) => "idle",
        (_, Phase::Ready) => "ready",
        (_, Phase::Busy) => "busy",
    };
    PLACES.iter().position(|place| *place == name).expect("a place")
}

/// Why SPI does not judge a frame to be whole; of one with a wrong check also where it is not judged.
pub fn wrong(frame: &[u8; 6], mode: Mode) -> Option<&'static str> {
    let index = frame[0] & 0x3F;
    match mode {
        _ if frame[0] >> 6 != 1 => Some("wrong start"),
        _ if frame[5] & 1 == 0 => Some("wrong end"),
        _ if frame[5] >> 1 == crc7(&frame[..5]) => None,
        Mode::Spi { crc_on: true } => Some("wrong, on"),
        _ if index == 8 => Some("wrong 8, off"),
        _ => Some("wrong, off"),
    }
}

impl SpiCoverage {
    pub fn call(&mut self, call: &Call, step: &Step) {
        let before = &step.before;
        self.calls[usize::from(before.mode.is_spi())] += 1;
        if let Call::Cmd(frame, _, is_low) = call {
            self.resets(frame, *is_low, step);
        }
        if !before.mode.is_spi() {
            return;
        }
        self.rows.entry(row(call, step)).or_default()[place(before)] += 1;
        if let Call::Cmd(frame, _, is_low) = call {
            self.tally.add("chip select in SPI", if *is_low { "low" } else { "high" });
            self.commands.call(frame, step);
        }
        self.blocks.call(call, step);
    }

    pub fn answer(&mut self, call: &Call, met: &Card, answer: &[u8]) {
        self.answers.answer(call, met, answer);
    }

    fn resets(&mut self, frame: &[u8; 6], is_low: bool, step: &Step) {
        let (before, after) = (&step.before, &step.after);
        let state = state_name(before.state);
        let is_whole = wrong(frame, Mode::Spi { crc_on: true }).is_none();
        if frame[0] != 0x40 {
            return;
        }
        match (before.mode, after.mode) {
            (Mode::Sd, Mode::Spi { .. }) => {
                self.tally.add("chosen in", state);
                self.held("held when chosen", before);
                self.tally.add("chosen", if before.locked { "locked" } else { "unlocked" });
            }
            (Mode::Sd, _) if is_low && is_whole => self.tally.add("not chosen", state),
            (Mode::Sd, _) if is_low => self.tally.add("not chosen", "damaged"),
            (Mode::Sd, _) if before.state == State::Ina => {}
            (Mode::Sd, _) if is_whole => self.tally.add("stayed in SD, chip select high", state),
            (Mode::Spi { crc_on: true }, Mode::Spi { crc_on: false }) => {
                self.tally.add("0", "turned checks off")
            }
            (Mode::Spi { crc_on: true }, _) => self.tally.add("0", "damaged, checks on"),
            _ if is_whole => self.tally.add("0", "checks off"),
            _ => self.tally.add("0", "damaged, checks off"),
        }
        if before.mode.is_spi() && after.status == 0 {
            self.held("held at 0 in SPI", before);
        }
    }

    fn held(&mut self, subject: &'static str, card: &Card) {
        for bit in (0..32).filter(|bit| card.status >> bit & 1 == 1) {
            self.tally.add(subject, bit.to_string());
        }
    }

    pub fn print(&self) {
        let [sd, spi] = self.calls;
        println!("\nSPI mode: {spi} calls of {}", sd + spi);
        self.print_rows();
        let states: Vec<String> = STATES.into_iter().map(state_name).collect();
        let (ina, others): (Vec<_>, Vec<_>) = states.into_iter().partition(|state| state == "ina");
        self.tally.print(&[
            ("chosen in", others.clone()),
            ("stayed in SD, chip select high", others),
            ("not chosen", [ina, names(&["damaged"])].concat()),
            ("chosen", names(&["locked", "unlocked"])),
            ("held when chosen", names(&HELD_IN_SD)),
            ("held at 0 in SPI", names(&HELD_IN_SPI)),
            ("0", names(&["turned checks off", "checks off", "damaged, checks on", "damaged, checks off"])),
            ("chip select in SPI", names(&["low", "high"])),
        ]);
        self.commands.print();
        self.blocks.print();
        self.answers.print();
    }

    fn print_rows(&self) {
        println!("{:14}{}", "", PLACES.map(|place| format!("{place:>9}")).concat());
        let mut missing = Vec::new();
        for row in all_rows() {
            let counts = self.rows.get(&row).copied().unwrap_or_default();
            println!("{row:14}{}", counts.map(|count| format!("{count:9}")).concat());
            for (place, count) in PLACES.into_iter().zip(counts) {
                if count == 0 && can_meet(&row, place) {
                    missing.push(format!("{row} in {place}"));
                }
            }
        }
        println!("cells not reached: {}", list(&missing));
    }
}

fn all_rows() -> Vec<String> {
    let plain = (0..64).map(|index| index.to_string());
    let application = APPLICATION.map(|index| format!("A{index}"));
    plain.chain(application).chain(names(&FRAMES)).chain(names(&OTHERS)).collect()
}

/// The application mark stands in idle and ready only. Two things wrong with a block count where one is due.
fn can_meet(row: &str, place: &str) -> bool {
    match row {
        "bad, token" => matches!(place, "24" | "25" | "25 held" | "42"),
        _ => !row.starts_with('A') || matches!(place, "idle" | "ready"),
    }
}

fn row(call: &Call, step: &Step) -> String {
    let before = &step.before;
    match call {
        Call::Cmd(frame, ..) => {
            let index = frame[0] & 0x3F;
            match wrong(frame, before.mode) {
                Some(why) => why.into(),
                None if before.app_mark && APPLICATION.contains(&index) => format!("A{index}"),
                None => index.to_string(),
            }
        }
        Call::Blk(block) => block_name(block, before).into(),
        Call::Take => "take".into(),
        Call::Over => "over".into(),
        Call::Power(_) if step.power == Some(Ok(())) => "power".into(),
        Call::Power(_) => "power refused".into(),
        Call::Mem(_) => "mem".into(),
        Call::Unreadable(_) => "unreadable".into(),
    }
}

/// What a call met, for the report of a difference.
pub fn met(card: &Card) -> String {
    match card.mode {
        Mode::Sd => state_name(card.state),
        Mode::Spi { crc_on } => {
            format!("spi {}{}", PLACES[place(card)], if crc_on { ", checks" } else { "" })
        }
    }
}
