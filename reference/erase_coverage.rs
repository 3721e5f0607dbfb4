//! What the differential tester has reached of erases with status polls in them.

use crate::calls::{Call, Frame};
use crate::card::{Card, State, ERASE_RESET};
use crate::host::Step;
use std::collections::BTreeMap;

#[derive(Default)]
pub struct EraseCoverage {
    /// Polls that ran since 32 and since 33.
    polls: [u64; 2],
    /// Erases, by whether any came after 32 and after 33; the most in one of them.
    erases: BTreeMap<[bool; 2], u64>,
    most: u64,
    /// Polls that showed an ERASE_RESET kept from before.
    shown: u64,
}

const WHERE: [([bool; 2], &str); 4] = [
    ([false, false], "no poll"),
    ([true, false], "after 32"),
    ([false, true], "after 33"),
    ([true, true], "after both"),
];

pub fn is_pending(card: &Card) -> bool {
    card.erase_start.is_some() || card.erase_end.is_some()
}

impl EraseCoverage {
    pub fn call(&mut self, call: &Call, step: &Step) {
        let (before, after) = (&step.before, &step.after);
        if is_status_poll(call, before) {
            self.shown += u64::from(before.status & ERASE_RESET != 0);
            match (before.erase_start, before.erase_end) {
                (Some(_), None) => self.polls[0] += 1,
                (Some(_), Some(_)) => self.polls[1] += 1,
                _ => {}
            }
        }
        // 38 is the only command that clears both marks on its way to prg.
        if before.erase_end.is_some() && after.state == State::Prg {
            *self.erases.entry(self.polls.map(|count| count > 0)).or_default() += 1;
            self.most = self.most.max(self.polls.iter().sum());
        }
        if after.erase_start != before.erase_start {
            self.polls = [0, 0];
        }
    }

    pub fn print(&self) {
        println!("\nerases with 13 between their commands");
        for (polls, name) in WHERE {
            println!("{:9}  {name}", self.erases.get(&polls).copied().unwrap_or(0));
        }
        println!("most in one: {}; 13 that showed a kept ERASE_RESET: {}", self.most, self.shown);
    }
}

/// 13 for this card that runs as SEND_STATUS.
fn is_status_poll(call: &Call, card: &Card) -> bool {
    let Call::Cmd([0x4D, high, low, ..], Frame::Sound, _) = call else {
        return false;
    };
    u16::from_be_bytes([*high, *low]) == card.rca
        && !card.app_mark
        && !matches!(card.state, State::Idle | State::Ready | State::Ident | State::Ina)
}
