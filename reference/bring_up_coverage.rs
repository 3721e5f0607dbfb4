//! What random bring-ups have reached: how they ended, after how many polls, and what happened to answers.

use crate::bring_up::{Command, End, Reason};
use crate::bring_up_cards::Damage;
use std::collections::{BTreeMap, BTreeSet};

#[derive(Default)]
pub struct BringUpCoverage {
    stopped: BTreeMap<(Command, Reason), u64>,
    /// Polls of those that ended selected and busy, and how many did.
    selected: BTreeMap<u16, u64>,
    busy: BTreeMap<u16, u64>,
    no_limit: u64,
    /// Ends of cards that started locked: selected, busy, stopped.
    locked: [u64; 3],
    addresses: BTreeSet<u16>,
    block_counts: BTreeSet<u32>,
    damages: BTreeMap<Damage, u64>,
    /// Answers fed one by one, and all at once.
    fed: [u64; 2],
}

const COMMANDS: [Command; 8] = [
    Command::GoIdleState,
    Command::SendIfCond,
    Command::AppCmd,
    Command::SdSendOpCond,
    Command::AllSendCid,
    Command::SendRelativeAddr,
    Command::SendCsd,
    Command::SelectCard,
];
const REASONS: [Reason; 5] = [Reason::Size, Reason::Wrong, Reason::Heard, Reason::Echo, Reason::Line];

impl BringUpCoverage {
    pub fn end(&mut self, end: Option<End>, is_locked: bool) {
        if let (true, Some(end)) = (is_locked, end) {
            let kind = match end {
                End::Selected { .. } => 0,
                End::Busy(_) => 1,
                End::Stopped(..) => 2,
            };
            self.locked[kind] += 1;
        }
        match end {
            None => self.no_limit += 1,
            Some(End::Busy(polls)) => *self.busy.entry(polls).or_default() += 1,
            Some(End::Stopped(command, reason)) => *self.stopped.entry((command, reason)).or_default() += 1,
            Some(End::Selected { rca, polls, blocks }) => {
                *self.selected.entry(polls).or_default() += 1;
                self.addresses.insert(rca);
                self.block_counts.insert(blocks);
            }
        }
    }

    pub fn damage(&mut self, damage: Damage) {
        *self.damages.entry(damage).or_default() += 1;
    }

    pub fn fed(&mut self, at_once: bool) {
        self.fed[usize::from(at_once)] += 1;
    }

    pub fn print(&self) {
        println!("selected: {}", polls(&self.selected));
        let (addresses, counts) = (self.addresses.len(), self.block_counts.len());
        let most = self.block_counts.last().copied().unwrap_or_default();
        println!("  {addresses} addresses, {counts} block counts up to {most}");
        println!("busy: {}", polls(&self.busy));
        println!("no limit: {}", self.no_limit);
        let [selected, busy, stopped] = self.locked;
        println!("locked cards: selected x {selected}, busy x {busy}, stopped x {stopped}");
        println!("stopped {}", REASONS.map(|reason| format!("{:>7}", reason.name())).concat());
        for command in COMMANDS {
            let cells = REASONS.map(|reason| self.cell(command, reason));
            println!("  {:>5} {}", command.name(), cells.concat());
        }
        let damages: Vec<String> =
            self.damages.iter().map(|(damage, count)| format!("{damage:?} x {count}")).collect();
        println!("damage: {}", damages.join(", "));
        let [one_by_one, at_once] = self.fed;
        println!("fed: one by one x {one_by_one}, all at once x {at_once}");
        println!("not reached: {}", self.not_reached());
    }

    fn cell(&self, command: Command, reason: Reason) -> String {
        let count = self.stopped.get(&(command, reason));
        format!("{:>7}", count.map_or(".".into(), u64::to_string))
    }

    fn not_reached(&self) -> String {
        let all = COMMANDS.iter().flat_map(|&command| REASONS.map(|reason| (command, reason)));
        let mut missing: Vec<String> = all
            .filter(|end| can_end(*end) && !self.stopped.contains_key(end))
            .map(|(command, reason)| format!("{} {}", command.name(), reason.name()))
            .collect();
        if self.locked.contains(&0) {
            missing.push("an end of a locked card".into());
        }
        if missing.is_empty() {
            "none".into()
        } else {
            missing.join(", ")
        }
    }
}

/// 0 expects silence, and only 8 an echo.
fn can_end((command, reason): (Command, Reason)) -> bool {
    match reason {
        Reason::Line => true,
        Reason::Heard => command == Command::GoIdleState,
        Reason::Echo => command == Command::SendIfCond,
        Reason::Size | Reason::Wrong => command != Command::GoIdleState,
    }
}

fn polls(counts: &BTreeMap<u16, u64>) -> String {
    let total: u64 = counts.values().sum();
    match (counts.first_key_value(), counts.last_key_value()) {
        (Some((least, _)), Some((most, _))) => format!("{total}, polls {least} to {most}"),
        _ => "none".into(),
    }
}
