//! What the differential tester has reached: calls by state, status bits, answers, holds.

use crate::calls::{is_good, Call, Frame};
use crate::card::{self, Card, CrcStatus, State, Transfer};
use crate::console_coverage::ConsoleCoverage;
use crate::erase_coverage::{is_pending, EraseCoverage};
use crate::host::{Step, APPLICATION};
use crate::lock_coverage::LockCoverage;
use crate::locked_coverage::LockedCoverage;
use crate::spi_coverage::SpiCoverage;
use std::collections::BTreeMap;

pub const STATES: [State; 10] = [
    State::Idle,
    State::Ready,
    State::Ident,
    State::Stby,
    State::Tran,
    State::Data,
    State::Rcv,
    State::Prg,
    State::Dis,
    State::Ina,
];

const SETTABLE: [u32; 18] = [31, 30, 29, 28, 27, 26, 25, 24, 23, 22, 15, 13, 12, 11, 10, 9, 8, 5];

#[derive(Default)]
pub struct Coverage {
    /// Calls by name and state at reception.
    rows: BTreeMap<Row, [u64; 10]>,
    /// Of each plain command, how many met a set application mark.
    marked: BTreeMap<Row, u64>,
    /// Of each call, how many met pending erase marks.
    pending: BTreeMap<Row, u64>,
    /// Status bits in R1 and R6, by the command answered.
    bits: BTreeMap<(u32, u8), u64>,
    answers: BTreeMap<String, u64>,
    holds: BTreeMap<&'static str, u64>,
    erase: EraseCoverage,
    lock: LockCoverage,
    locked: LockedCoverage,
    console: Option<ConsoleCoverage>,
    /// All else is about SD mode.
    spi: SpiCoverage,
}

#[derive(Clone, PartialEq, Eq, PartialOrd, Ord)]
enum Row {
    Plain(u8, &'static str),
    Application(u8),
    Other(&'static str),
}

impl Coverage {
    pub fn new(is_console: bool) -> Coverage {
        Coverage { console: is_console.then(ConsoleCoverage::default), ..Coverage::default() }
    }

    pub fn call(&mut self, call: &Call, step: &Step) {
        self.spi.call(call, step);
        if let Some(console) = &mut self.console {
            console.call(call, step);
        }
        if step.before.mode.is_spi() {
            return;
        }
        let row = Row::of(call, step);
        if step.before.app_mark {
            *self.marked.entry(row.clone()).or_default() += 1;
        }
        if is_pending(&step.before) {
            *self.pending.entry(row.clone()).or_default() += 1;
        }
        self.rows.entry(row).or_default()[step.before.state as usize] += 1;
        if let Some(hold) = hold(call, step) {
            *self.holds.entry(hold).or_default() += 1;
        }
        self.erase.call(call, step);
        self.lock.call(call, step);
        self.locked.call(call, step);
    }

    /// The card is the one that the call met.
    pub fn answer(&mut self, call: &Call, met: &Card, answer: &[u8]) {
        let text = String::from_utf8_lossy(answer.trim_ascii_end()).into_owned();
        let response = text.strip_prefix("rsp\t").unwrap_or("");
        // the 0 that chooses SPI has an answer of SPI
        if met.mode.is_spi() || response.len() == 2 {
            return self.spi.answer(call, met, answer);
        }
        let kind = kind(&text, response);
        if let (Call::Cmd(frame, _, _), "rsp R1" | "rsp R6") = (call, kind.as_str()) {
            let content = u32::from_str_radix(response.get(2..10).unwrap_or(""), 16).unwrap_or(0);
            let status = match kind.as_str() {
                "rsp R6" => (content & 0xC000) << 8 | (content & 0x2000) << 6 | content & 0x1FFF,
                _ => content,
            };
            for bit in (0..32).filter(|bit| status >> bit & 1 == 1) {
                *self.bits.entry((bit, frame[0] & 0x3F)).or_default() += 1;
            }
        }
        *self.answers.entry(kind).or_default() += 1;
        if let Some(console) = &mut self.console {
            console.answer(call, response);
        }
    }

    pub fn print(&self) {
        self.print_rows();
        self.print_bits();
        println!("\nanswers");
        for (answer, count) in &self.answers {
            println!("{count:9}  {answer}");
        }
        println!("\nholds");
        for (hold, count) in &self.holds {
            println!("{count:9}  {hold}");
        }
        self.erase.print();
        self.lock.print(self.console.is_some());
        self.locked.print(self.console.is_some());
        if let Some(console) = &self.console {
            console.print();
            self.spi.print();
        }
        println!();
    }

    fn print_rows(&self) {
        print!("{:14}", "");
        for state in STATES {
            print!("{:>9}", state_name(state));
        }
        println!("{:>9}{:>9}", "after 55", "erasing");
        let mut missing = Vec::new();
        for row in all_rows(self.console.is_some()) {
            let counts = self.rows.get(&row).copied().unwrap_or_default();
            print!("{:14}", row.name());
            for (state, count) in STATES.into_iter().zip(counts) {
                print!("{count:9}");
                if count == 0 && row.can_meet(state, self.console.is_some()) {
                    missing.push(format!("{} in {}", row.name(), state_name(state)));
                }
            }
            let [marked, pending] =
                [&self.marked, &self.pending].map(|of| of.get(&row).copied().unwrap_or(0));
            println!("{marked:9}{pending:9}");
        }
        println!("cells not reached: {}", list(&missing));
    }

    fn print_bits(&self) {
        println!("\nstatus bits shown (bit: command x count)");
        for bit in (0..32).rev() {
            let by: Vec<String> = self
                .bits
                .range((bit, 0)..(bit + 1, 0))
                .map(|((_, index), count)| format!("{index} x {count}"))
                .collect();
            if !by.is_empty() {
                println!("{bit:3}: {}", by.join(", "));
            }
        }
        let unseen: Vec<u32> =
            SETTABLE.into_iter().filter(|&bit| !self.bits.keys().any(|key| key.0 == bit)).collect();
        println!(
            "settable bits not shown: {}",
            if unseen.is_empty() { "none".into() } else { format!("{unseen:?}") }
        );
    }
}

pub fn state_name(state: State) -> String {
    format!("{state:?}").to_lowercase()
}

pub fn list(names: &[String]) -> String {
    if names.is_empty() {
        "none".into()
    } else {
        names.join(", ")
    }
}

fn kind(text: &str, response: &str) -> String {
    match (text.split('\t').next(), response.get(..2)) {
        (_, Some("3F")) if response.len() == 34 => "rsp R2".into(),
        (_, Some("3F")) => format!("rsp R3 {}", &response[2..10]),
        (_, Some("03")) => "rsp R6".into(),
        (_, Some("08")) => "rsp R7".into(),
        (_, Some(_)) => "rsp R1".into(),
        (Some("blk"), _) => match (text.len() - 4) / 2 - 2 {
            length @ (4 | 8 | 64 | 512) => format!("blk of {length}"),
            _ => "blk of another length".into(),
        },
        (Some("mem"), _) => "mem".into(),
        _ => text.into(),
    }
}

fn hold(call: &Call, step: &Step) -> Option<&'static str> {
    let is_held = |card: &Card| {
        matches!(card.transfer, Transfer::Read { held: true, .. } | Transfer::Write { held: true, .. })
    };
    if matches!(call, Call::Blk(packet) if packet.len() != step.before.packet_size()) {
        return None;
    }
    let new_bits = step.after.status & !step.before.status;
    Some(match (call, is_held(&step.before), is_held(&step.after)) {
        (Call::Take, true, _) => "take while held",
        (Call::Blk(packet), true, _) if is_good(packet) => "block while held",
        (Call::Blk(_), true, _) => "bad block while held",
        (Call::Cmd(..), true, false) => "hold ended by a command",
        (Call::Cmd(..), true, true) => "command while held",
        (Call::Take, false, true) if new_bits == card::OUT_OF_RANGE => "18 held at capacity",
        (Call::Take, false, true) if new_bits == card::ADDRESS_ERROR => "18 held at a boundary",
        (Call::Take, false, true) => "18 held, bit already kept",
        (Call::Blk(_), false, true) if step.crc_status == Some(CrcStatus::Rejected) => {
            "25 held by a bad check"
        }
        (Call::Blk(_), false, true) if new_bits == card::OUT_OF_RANGE => "25 held at capacity",
        (Call::Blk(_), false, true) if new_bits == card::WP_VIOLATION => "25 held by protection",
        (Call::Blk(_), false, true) => "25 held, bit already kept",
        _ => return None,
    })
}

fn all_rows(is_console: bool) -> Vec<Row> {
    let mut rows = Vec::new();
    for index in 0..64 {
        match index {
            7 | 9 | 10 | 13 | 15 | 55 => rows.extend(["own", "other"].map(|whose| Row::Plain(index, whose))),
            _ => rows.push(Row::Plain(index, "")),
        }
    }
    rows.extend(APPLICATION.map(Row::Application));
    let others = ["damaged", "noise", "block", "bad block", "other size", "take", "over", "unreadable"];
    rows.extend(others.map(Row::Other));
    if is_console {
        rows.extend(["power", "power refused", "mem"].map(Row::Other));
    }
    rows
}

impl Row {
    fn of(call: &Call, step: &Step) -> Row {
        match call {
            Call::Cmd(frame, Frame::Sound, _) => {
                let index = frame[0] & 0x3F;
                let own = u16::from_be_bytes([frame[1], frame[2]]) == step.before.rca;
                match index {
                    _ if step.before.app_mark && APPLICATION.contains(&index) => Row::Application(index),
                    7 | 9 | 10 | 13 | 15 | 55 => Row::Plain(index, if own { "own" } else { "other" }),
                    _ => Row::Plain(index, ""),
                }
            }
            Call::Cmd(_, Frame::Damaged, _) => Row::Other("damaged"),
            Call::Cmd(_, Frame::Noise, _) => Row::Other("noise"),
            Call::Blk(packet) if packet.len() != step.before.packet_size() => Row::Other("other size"),
            Call::Blk(packet) if is_good(packet) => Row::Other("block"),
            Call::Blk(_) => Row::Other("bad block"),
            Call::Take => Row::Other("take"),
            Call::Over => Row::Other("over"),
            Call::Power(_) if step.power == Some(Ok(())) => Row::Other("power"),
            Call::Power(_) => Row::Other("power refused"),
            Call::Mem(_) => Row::Other("mem"),
            Call::Unreadable(_) => Row::Other("unreadable"),
        }
    }

    fn name(&self) -> String {
        match self {
            Row::Plain(index, whose) => format!("{index} {whose}"),
            Row::Application(index) => format!("A{index}"),
            Row::Other(name) => (*name).into(),
        }
    }

    /// The application mark never stands in ready, ident and ina. Replay's blocks have 514 bytes, which only 42
    /// may find wrong.
    fn can_meet(&self, state: State, is_console: bool) -> bool {
        match self {
            Row::Application(_) => !matches!(state, State::Ready | State::Ident | State::Ina),
            Row::Other("other size") => is_console || state == State::Rcv,
            _ => true,
        }
    }
}
