//! What the differential tester has reached of cards with a password: power-ups, commands while locked, resets.

use crate::calls::{Call, Frame, Power};
use crate::card::{Password, Settings, State, ILLEGAL_COMMAND, LONGEST_PASSWORD};
use crate::host::{Step, APPLICATION};
use crate::lines::CONSOLE_BLOCKS;
use crate::tally::{names, Tally};

#[derive(Default)]
pub struct LockedCoverage {
    tally: Tally,
}

const ILLEGAL: [&str; 14] =
    ["17", "18", "24", "25", "28", "29", "30", "32", "33", "38", "A13", "A22", "A23", "A51"];
const ALLOWED: [&str; 16] =
    ["0", "2", "3", "7 own", "7 other", "8", "9", "10", "12", "13", "15", "16", "42", "55", "A41", "A42"];

impl LockedCoverage {
    pub fn call(&mut self, call: &Call, step: &Step) {
        match call {
            Call::Power(power) => self.power(power, step),
            Call::Cmd(frame, Frame::Sound, _) => self.command(frame, step),
            _ => {}
        }
    }

    fn power(&mut self, power: &Power, step: &Step) {
        let length = usize::from(power.password.length);
        if step.power == Some(Ok(())) {
            self.tally.add("power-up with", format!("{length:02}"));
            if power.password.bytes[length..].iter().any(|&byte| byte != 0) {
                self.tally.add("behind the length", if length == 0 { "of none" } else { "of a password" });
            }
            self.tally.add("power-up met", if step.before.locked { "locked" } else { "unlocked" });
        } else if length > LONGEST_PASSWORD {
            let others = Settings { password: Password::default(), ..power.settings() };
            let why = match length {
                _ if others.block_count > CONSOLE_BLOCKS || !others.are_allowed() => "with another row",
                17 => "17",
                255 => "255",
                _ => "18..254",
            };
            self.tally.add("refused length", why);
        }
    }

    fn command(&mut self, frame: &[u8; 6], step: &Step) {
        let (before, after) = (&step.before, &step.after);
        let index = frame[0] & 0x3F;
        if before.state == State::Ina {
            return;
        }
        if index == 0 && before.settings.password.is_set() {
            self.tally.add("0 with a password", if before.locked { "locked" } else { "unlocked" });
        }
        if !before.locked {
            return;
        }
        let own = u16::from_be_bytes([frame[1], frame[2]]) == before.rca;
        let name = name(index, own, before.app_mark);
        if after.status & ILLEGAL_COMMAND != 0 {
            if before.state == State::Tran && ILLEGAL.contains(&name.as_str()) {
                self.tally.add("illegal in tran", name);
            }
        } else if own || !matches!(index, 9 | 10 | 13 | 15 | 55) {
            self.tally.add("ran", name);
        }
    }

    pub fn print(&self, is_console: bool) {
        println!("\ncards with a password");
        let mut wanted = vec![
            ("ran", names(&ALLOWED)),
            ("illegal in tran", names(&ILLEGAL)),
            ("0 with a password", names(&["locked", "unlocked"])),
        ];
        if is_console {
            wanted.push(("power-up with", (0..=16).map(|length| format!("{length:02}")).collect()));
            wanted.push(("behind the length", names(&["of none", "of a password"])));
            wanted.push(("power-up met", names(&["locked", "unlocked"])));
            wanted.push(("refused length", names(&["17", "18..254", "255", "with another row"])));
        }
        self.tally.print(&wanted);
    }
}

/// As in the transition table.
fn name(index: u8, own: bool, app_mark: bool) -> String {
    match index {
        _ if app_mark && APPLICATION.contains(&index) => format!("A{index}"),
        7 => format!("7 {}", if own { "own" } else { "other" }),
        _ => index.to_string(),
    }
}
