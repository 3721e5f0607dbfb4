//! What the differential tester has reached of command 42 and its blocks.

use crate::calls::{is_good, Call, Frame};
use crate::card::{Card, CrcStatus, Transfer, LOCK_UNLOCK_FAILED};
use crate::host::Step;
use crate::tally::{names, Tally};

#[derive(Default)]
pub struct LockCoverage {
    tally: Tally,
    /// A block of 42 has come since A22's count changed.
    count_met: bool,
}

const OPERATIONS: [&str; 9] = [
    "force erase",
    "lock",
    "unlock",
    "clear",
    "set",
    "replace",
    "set and lock",
    "replace and lock",
    "no operation",
];
const OUTCOMES: [&str; 4] = ["locked done", "locked failed", "unlocked done", "unlocked failed"];
const LENGTHS: [(u32, &str); 6] =
    [(1, "1"), (2, "2"), (16, "3..16"), (34, "17..34"), (511, "35..511"), (512, "512")];
const MATCHES: [&str; 7] = ["right", "last byte", "other byte", "prefix", "right and more", "empty", "other"];
const PROTECTIONS: [&str; 8] = [
    "none",
    "permanent",
    "temporary",
    "marks",
    "permanent and temporary",
    "permanent and marks",
    "temporary and marks",
    "permanent and temporary and marks",
];
const NEW: [&str; 4] = ["none", "1..16", "17", "more"];
const SILENT: [&str; 5] = ["0", "3", "7", "9", "10"];

impl LockCoverage {
    pub fn call(&mut self, call: &Call, step: &Step) {
        let (before, after) = (&step.before, &step.after);
        self.count_met &= before.num_wr_blocks == after.num_wr_blocks;
        let [was_open, is_open] = [before, after].map(|card| card.transfer == Transfer::LockUnlock);
        match call {
            Call::Blk(packet) if was_open => self.block(packet, step),
            Call::Cmd([index, ..], Frame::Sound, _) => self.command(index & 0x3F, step, was_open, is_open),
            Call::Power(_) if was_open && !is_open => self.tally.add("transfer ended by", "power-up"),
            _ => {}
        }
    }

    fn command(&mut self, index: u8, step: &Step, was_open: bool, is_open: bool) {
        let (before, after) = (&step.before, &step.after);
        if is_open && !was_open {
            self.tally.add("42", if before.locked { "locked" } else { "unlocked" });
            if before.erase_start.is_some() {
                self.tally.add("42", "with erase marks");
            }
        }
        if was_open && !is_open {
            self.tally.add("transfer ended by", index.to_string());
        }
        if after.transfer == Transfer::NumWrBlocks && self.count_met {
            self.tally.add("A22's count", "sent after 42");
        }
        // what R1 does not clear: a silent command, R2 and R6; 0 clears all
        let failed = [before, after].map(|card| card.status & LOCK_UNLOCK_FAILED != 0);
        if failed[0] && (failed[1] || index == 0) && SILENT.contains(&index.to_string().as_str()) {
            self.tally.add("failure not shown by", index.to_string());
        }
    }

    /// In SPI without its token.
    pub fn block(&mut self, packet: &[u8], step: &Step) {
        let before = &step.before;
        let size = packet.len() as i64 - before.packet_size() as i64;
        if size != 0 {
            let near = if size.abs() < 3 { "near" } else { "far" };
            let check = if is_good(packet) { ", right check" } else { "" };
            return self.tally.add("wrong size", format!("{near}{check}"));
        }
        let payload = &packet[..packet.len() - 2];
        let operation = operation(payload[0], before);
        if step.crc_status == Some(CrcStatus::Rejected) {
            return self.tally.add("damaged", operation);
        }
        let done = step.after.status & LOCK_UNLOCK_FAILED == 0;
        let locked = if before.locked { "locked" } else { "unlocked" };
        self.tally.add(operation, format!("{locked} {}", if done { "done" } else { "failed" }));
        self.tally.add("flags", format!("{:X} {locked}", payload[0] & 15));
        let length = LENGTHS.iter().find(|(most, _)| before.block_len <= *most);
        self.tally.add("length", length.map_or("?", |(_, name)| *name));
        self.count_met |= before.num_wr_blocks > 0;
        if done && payload[0] > 15 {
            self.tally.add("ignored", "reserved bits");
        }
        match operation {
            "no operation" => {}
            "force erase" if before.locked => self.tally.add("protection at force erase", protection(before)),
            "force erase" => {}
            _ => self.fields(payload, before, done),
        }
    }

    /// How the data of a block stands to the password.
    fn fields(&mut self, payload: &[u8], before: &Card, done: bool) {
        let password = before.settings.password.content();
        let Some(&pwds_len) = payload.get(1) else {
            return self.tally.add("too short", "1");
        };
        let Some(data) = payload.get(2..2 + usize::from(pwds_len)) else {
            return self.tally.add("too short", if payload.len() == 2 { "2" } else { "2 and L" });
        };
        if payload.len() > 2 + data.len() && done {
            self.tally.add("ignored", "rest of the block");
        }
        let sets = matches!(payload[0] & 15, 1 | 5);
        let (old, new) = data.split_at(if sets { password.len().min(data.len()) } else { data.len() });
        if !password.is_empty() {
            self.tally.add(if sets { "old password" } else { "password" }, compare(old, password));
        }
        if sets && old == password {
            self.tally.add("new password", NEW[new_kind(new.len())]);
        }
        if sets && done {
            self.tally.add("stored", format!("{:02}", new.len()));
        }
    }

    pub fn print(&self, is_console: bool) {
        println!("\ncommand 42 and its blocks");
        self.tally.print(&wanted(is_console));
    }

    /// What does not go by commands.
    pub fn print_blocks(&self) {
        println!("\nblocks of 42 in SPI mode");
        let mut wanted: Vec<_> = OPERATIONS.into_iter().map(|name| (name, outcomes(name, true))).collect();
        wanted.extend([
            ("length", names(&LENGTHS.map(|(_, name)| name))),
            ("protection at force erase", names(&PROTECTIONS)),
            ("too short", names(&["1", "2", "2 and L"])),
            ("password", names(&MATCHES)),
            ("damaged", names(&OPERATIONS)),
        ]);
        self.tally.print(&wanted);
    }
}

fn operation(flags: u8, card: &Card) -> &'static str {
    match (flags & 15, card.settings.password.is_set()) {
        (8, _) => "force erase",
        (4, _) => "lock",
        (0, _) => "unlock",
        (2, _) => "clear",
        (1, false) => "set",
        (1, true) => "replace",
        (5, false) => "set and lock",
        (5, true) => "replace and lock",
        _ => "no operation",
    }
}

fn new_kind(length: usize) -> usize {
    match length {
        0 => 0,
        1..=16 => 1,
        17 => 2,
        _ => 3,
    }
}

fn compare(data: &[u8], password: &[u8]) -> &'static str {
    let common = data.iter().zip(password).take_while(|(a, b)| a == b).count();
    match (data.len(), password.len()) {
        (0, _) => "empty",
        (a, b) if a == b && common == b => "right",
        (a, b) if a == b && common == b - 1 => "last byte",
        (a, b) if a == b => "other byte",
        (a, _) if common == a => "prefix",
        (_, b) if common == b => "right and more",
        _ => "other",
    }
}

fn protection(card: &Card) -> String {
    let settings = &card.settings;
    let marked = card.write_prot.iter().any(|&byte| byte != 0);
    let parts = [
        (settings.perm_write_protect, "permanent"),
        (settings.tmp_write_protect, "temporary"),
        (marked, "marks"),
    ];
    let parts: Vec<&str> = parts.into_iter().filter(|(is, _)| *is).map(|(_, name)| name).collect();
    if parts.is_empty() {
        "none".into()
    } else {
        parts.join(" and ")
    }
}

/// Subjects, and what must be reached of each. Replay has no protected cards, and no length but 512.
fn wanted(is_console: bool) -> Vec<(&'static str, Vec<String>)> {
    let flags = (0..16).flat_map(|flags| ["locked", "unlocked"].map(|lock| format!("{flags:X} {lock}")));
    let mut wanted: Vec<_> = OPERATIONS.into_iter().map(|name| (name, outcomes(name, is_console))).collect();
    wanted.push(("flags", flags.collect()));
    wanted.push(("stored", (1..=16).map(|length| format!("{length:02}")).collect()));
    let on_console =
        |subject, kinds: &[&str], others: &[&str]| (subject, names(if is_console { kinds } else { others }));
    wanted.extend([
        on_console("length", &LENGTHS.map(|(_, name)| name), &["512"]),
        on_console("protection at force erase", &PROTECTIONS, &["none", "marks"]),
        on_console("too short", &["1", "2", "2 and L"], &[]),
        on_console("wrong size", &["near", "near, right check", "far", "far, right check"], &["far"]),
    ]);
    let always: [(_, &[&str]); 9] = [
        ("password", &MATCHES),
        ("old password", &["right", "last byte", "other byte", "prefix", "empty", "other"]),
        ("new password", &NEW),
        ("ignored", &["rest of the block", "reserved bits"]),
        ("damaged", &OPERATIONS),
        ("transfer ended by", &["12", "0"]),
        ("failure not shown by", &SILENT),
        ("42", &["locked", "unlocked", "with erase marks"]),
        ("A22's count", &["sent after 42"]),
    ];
    wanted.extend(always.map(|(subject, kinds)| (subject, names(kinds))));
    wanted
}

/// A locked card has a password, and force erase fails on it only where it is permanently protected.
fn outcomes(operation: &str, is_console: bool) -> Vec<String> {
    let outcomes = OUTCOMES.into_iter().filter(|outcome| match operation {
        "force erase" if !is_console && *outcome == "locked failed" => false,
        "force erase" => *outcome != "unlocked done",
        "lock" => *outcome != "locked done",
        "unlock" => *outcome != "unlocked done",
        "set" | "set and lock" => outcome.starts_with("unlocked"),
        "no operation" => outcome.ends_with("failed"),
        _ => true,
    });
    outcomes.map(String::from).collect()
}
