//! What the differential tester has reached of commands in SPI mode: SPI's own, erase, protection, locked cards.

use crate::card::spi::Phase;
use crate::card::{Card, Mode, ERASE_PARAM, WP_ERASE_SKIP, WP_VIOLATION};
use crate::host::{Step, APPLICATION};
use crate::spi_coverage::wrong;
use crate::tally::{names, Tally};

#[derive(Default)]
pub struct SpiCommandCoverage {
    tally: Tally,
}

/// Commands that run, 12 in transfers alone; and those that a locked card allows.
const RUN: [&str; 27] = [
    "0", "8", "9", "10", "13", "16", "17", "18", "24", "25", "28", "29", "30", "32", "33", "38", "42", "55",
    "58", "59", "A13", "A22", "A23", "A41", "A42", "A51", "12",
];
const LOCKED: [&str; 13] = ["0", "8", "9", "10", "12", "13", "16", "42", "55", "58", "59", "A41", "A42"];
/// What drops pending erase marks. After 55 there are none, so no A row is among them.
const DROPS: [&str; 15] =
    ["8", "9", "10", "16", "17", "18", "24", "25", "28", "29", "30", "42", "55", "58", "59"];

impl SpiCommandCoverage {
    pub fn call(&mut self, frame: &[u8; 6], step: &Step) {
        let before = &step.before;
        let index = frame[0] & 0x3F;
        if !matches!(wrong(frame, before.mode), None | Some("wrong, off")) {
            if before.app_mark {
                self.tally.add("mark", "kept by a damaged frame");
            }
            return;
        }
        let argument = u32::from_be_bytes([frame[1], frame[2], frame[3], frame[4]]);
        let name = match before.app_mark && APPLICATION.contains(&index) {
            true => format!("A{index}"),
            false => index.to_string(),
        };
        if !ran(&name, before) {
            return self.illegal(name, before);
        }
        self.ran(name.clone(), step);
        match name.as_str() {
            "8" | "58" | "59" | "A41" => self.own(&name, argument, step),
            "9" | "10" | "13" | "55" if argument >> 16 != 0 => self.tally.add("another RCA", name),
            "24" | "25" | "38" | "28" | "29" => self.memory(&name, step),
            _ => {}
        }
    }

    fn illegal(&mut self, name: String, before: &Card) {
        if before.app_mark {
            self.tally.add("mark", "dropped by a frame not allowed");
        }
        if before.locked && before.phase() == Phase::Ready && RUN.contains(&name.as_str()) && name != "12" {
            self.tally.add("illegal while locked", name);
        } else if before.app_mark && name == "6" {
            self.tally.add("mark", "A6");
        }
        if before.erase_start.is_some() {
            self.tally.add("erase marks", "kept by a frame not allowed");
        }
    }

    fn ran(&mut self, name: String, step: &Step) {
        let (before, after) = (&step.before, &step.after);
        if before.locked {
            self.tally.add("ran while locked", name.clone());
        }
        if before.app_mark && !name.starts_with('A') {
            self.tally.add("mark", "ran as plain after 55");
        }
        if before.erase_start.is_some() && after.erase_start.is_none() && name != "38" && name != "0" {
            self.tally.add("erase marks dropped by", name.clone());
        }
        if before.erase_start.is_some() && name == "13" {
            self.tally.add("erase marks", "kept by 13");
        }
        self.tally.add("ran", name);
    }

    /// 8, 58, 59 and A41.
    fn own(&mut self, name: &str, argument: u32, step: &Step) {
        let (before, after) = (&step.before, &step.after);
        let idle = if before.phase() == Phase::Idle { "idle" } else { "outside idle" };
        let is_on = |card: &Card| card.mode == Mode::Spi { crc_on: true };
        let window = match argument & 0x00FF_FFFF {
            0 => "window 0",
            window if window & 0x00FF_8000 == 0 => "window outside",
            _ => "window",
        };
        match name {
            "8" if argument >> 8 & 15 == 1 => self.tally.add("8", format!("our voltage, {idle}")),
            "8" => self.tally.add("8", format!("another voltage, {idle}")),
            "58" => self.tally.add("58", idle),
            "59" => {
                let now = |on| if on { "on" } else { "off" };
                self.tally.add("59", format!("{} to {}, {idle}", now(is_on(before)), now(is_on(after))));
            }
            _ if idle == "outside idle" => self.tally.add("A41", idle),
            _ if after.phase() == Phase::Idle => self.tally.add("A41", format!("one poll fewer, {window}")),
            _ => self.tally.add("A41", format!("leaves idle, {window}")),
        }
    }

    /// What R1 does not show, and the erase.
    fn memory(&mut self, name: &str, step: &Step) {
        let (before, after) = (&step.before, &step.after);
        let new = after.status & !before.status;
        let is_busy = after.phase() == Phase::Busy;
        let kind = match (name, new) {
            ("24" | "25", WP_VIOLATION) => format!("{name} refused"),
            ("38", ERASE_PARAM) => "38 with ERASE_PARAM".into(),
            ("38", WP_ERASE_SKIP) => "38 with WP_ERASE_SKIP".into(),
            ("38", 0) if is_busy => "38 done".into(),
            ("28" | "29", 0) if is_busy => format!("{name} done"),
            _ => return,
        };
        self.tally.add("protection and erase", kind);
    }

    pub fn print(&self) {
        println!("\ncommands in SPI mode");
        let illegal: Vec<&str> = RUN.into_iter().filter(|name| !LOCKED.contains(name)).collect();
        let ways = ["on to on", "on to off", "off to on", "off to off"];
        let ways = ways.iter().flat_map(|way| ["idle", "outside idle"].map(|idle| format!("{way}, {idle}")));
        let windows = ["window 0", "window outside", "window"];
        let polls = windows.map(|window| format!("one poll fewer, {window}"));
        let leaves = windows.map(|window| format!("leaves idle, {window}"));
        let eight = ["our voltage", "another voltage"];
        let eight =
            eight.iter().flat_map(|way| ["idle", "outside idle"].map(|idle| format!("{way}, {idle}")));
        self.tally.print(&[
            ("ran", names(&RUN)),
            ("ran while locked", names(&LOCKED)),
            ("illegal while locked", names(&illegal)),
            ("8", eight.collect()),
            ("58", names(&["idle", "outside idle"])),
            ("59", ways.collect()),
            ("A41", [&polls[..], &leaves, &names(&["outside idle"])].concat()),
            ("another RCA", names(&["9", "10", "13", "55"])),
            ("mark", names(&MARK)),
            ("erase marks", names(&["kept by 13", "kept by a frame not allowed"])),
            ("erase marks dropped by", names(&DROPS)),
            ("protection and erase", names(&MEMORY)),
        ]);
    }
}

const MARK: [&str; 4] =
    ["kept by a damaged frame", "dropped by a frame not allowed", "ran as plain after 55", "A6"];
const MEMORY: [&str; 7] = [
    "24 refused",
    "25 refused",
    "28 done",
    "29 done",
    "38 done",
    "38 with ERASE_PARAM",
    "38 with WP_ERASE_SKIP",
];

/// Goes by the papers' lists, not by the card.
fn ran(name: &str, card: &Card) -> bool {
    let is_listed = match card.phase() {
        Phase::Idle => matches!(name, "0" | "8" | "55" | "A41" | "58" | "59"),
        Phase::Open => matches!(name, "0" | "12" | "13"),
        Phase::Busy => matches!(name, "0" | "13"),
        Phase::Ready => RUN.contains(&name) && name != "12",
    };
    is_listed && (!card.locked || LOCKED.contains(&name))
}
