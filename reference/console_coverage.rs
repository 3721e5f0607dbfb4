//! What the differential tester has reached of the console: power-ups, memory shown, protected cards.

use crate::calls::{Call, Frame};
use crate::card::{Card, Settings, State};
use crate::coverage::{list, state_name, STATES};
use crate::host::Step;
use crate::lines::CONSOLE_BLOCKS;
use std::collections::{BTreeMap, BTreeSet};

#[derive(Default)]
pub struct ConsoleCoverage {
    /// Power-ups accepted, by the state they met and by their settings.
    states: BTreeMap<usize, u64>,
    protections: BTreeMap<usize, u64>,
    polls: BTreeMap<usize, u64>,
    sizes: BTreeMap<usize, u64>,
    counts: BTreeSet<u32>,
    /// Power-ups refused, by number.
    refused: BTreeMap<usize, u64>,
    unreadable: BTreeMap<&'static str, u64>,
    mem_answered: u64,
    /// Blocks of other sizes in rcv and elsewhere, and their sizes.
    blocks: [u64; 2],
    block_sizes: BTreeSet<usize>,
    /// C_SIZE and C_SIZE_MULT in answers to command 9.
    c_sizes: BTreeSet<u32>,
    c_size_mults: BTreeSet<u32>,
    /// Commands that met a protected card in tran, by index and protection.
    guarded: BTreeMap<(u8, usize), u64>,
}

const PROTECTIONS: [&str; 4] = ["none", "permanent", "temporary", "both"];
const POLLS: [&str; 3] = ["0", "1", "2..15"];
const SIZES: [(u32, &str); 6] =
    [(32, "4..31"), (64, "32..63"), (65, "64"), (512, "65..511"), (2048, "512..2,047"), (2049, "2,048")];
const GUARDED: [u8; 4] = [24, 25, 28, 38];

impl ConsoleCoverage {
    pub fn call(&mut self, call: &Call, step: &Step) {
        match (call, step.power) {
            (Call::Power(power), Some(Ok(()))) => self.power_up(&power.settings(), &step.before),
            (_, Some(Err(refusal))) => count(&mut self.refused, refusal as usize),
            (Call::Mem(block), _) if *block >= CONSOLE_BLOCKS => {
                count(&mut self.unreadable, "mem, no such block")
            }
            (Call::Mem(_), _) => self.mem_answered += 1,
            (Call::Blk(_) | Call::Cmd(..), _) if step.before.mode.is_spi() => {}
            (Call::Blk(packet), _) if packet.len() != step.before.packet_size() => {
                self.blocks[usize::from(step.before.state != State::Rcv)] += 1;
                self.block_sizes.insert(packet.len());
            }
            (Call::Unreadable(line), _) => self.unreadable_line(line),
            (Call::Cmd(frame, Frame::Sound, _), _) => self.guarded(frame[0] & 0x3F, &step.before),
            _ => {}
        }
    }

    fn power_up(&mut self, settings: &Settings, met: &Card) {
        if !met.mode.is_spi() {
            count(&mut self.states, met.state as usize);
        }
        count(&mut self.protections, protection(settings));
        count(&mut self.polls, usize::from(settings.start_polls.min(2)));
        let size = SIZES.iter().position(|(limit, _)| settings.block_count < *limit);
        count(&mut self.sizes, size.expect("no card is larger"));
        self.counts.insert(settings.block_count);
    }

    fn unreadable_line(&mut self, line: &[u8]) {
        for word in ["power", "mem", "blk"] {
            if line.starts_with(word.as_bytes()) {
                count(&mut self.unreadable, word);
            }
        }
    }

    fn guarded(&mut self, index: u8, card: &Card) {
        let protection = protection(&card.settings);
        if card.state == State::Tran && GUARDED.contains(&index) && protection != 0 {
            count(&mut self.guarded, (index, protection));
        }
    }

    pub fn answer(&mut self, call: &Call, response: &str) {
        let Call::Cmd([0x49, ..], _, _) = call else {
            return;
        };
        if let Some(csd) = response.get(2..34).and_then(|csd| u128::from_str_radix(csd, 16).ok()) {
            self.c_sizes.insert((csd >> 62) as u32 & 0xFFF);
            self.c_size_mults.insert((csd >> 47) as u32 & 7);
        }
    }

    pub fn print(&self) {
        println!("\npower-ups accepted");
        let states = STATES.map(|state| state_name(state));
        println!("  met:        {}", table(&self.states, &states));
        let missing: Vec<String> = states
            .iter()
            .enumerate()
            .filter(|(i, _)| !self.states.contains_key(i))
            .map(|(_, n)| n.clone())
            .collect();
        println!("  not met:    {}", list(&missing));
        println!("  protection: {}", table(&self.protections, &PROTECTIONS));
        println!("  polls:      {}", table(&self.polls, &POLLS));
        println!("  blocks:     {}", table(&self.sizes, &SIZES.map(|(_, name)| name)));
        println!("  {} block counts", self.counts.len());
        println!("power-ups refused: {}", table(&self.refused, &["", "", "", "3", "", "", "6"]));
        println!("CSDs shown: {} C_SIZE, C_SIZE_MULT {:?}", self.c_sizes.len(), self.c_size_mults);
        println!("mem answered: {}", self.mem_answered);
        let unreadable: Vec<String> =
            self.unreadable.iter().map(|(word, count)| format!("{word} x {count}")).collect();
        println!("unreadable: {}", list(&unreadable));
        let [in_rcv, elsewhere] = self.blocks;
        println!("blocks of {} other sizes: {in_rcv} in rcv, {elsewhere} elsewhere", self.block_sizes.len());
        println!("commands that met a protected card in tran");
        for index in GUARDED {
            let of_index = self.guarded.iter().filter(|(key, _)| key.0 == index);
            let counts = of_index.map(|((_, protection), count)| (*protection, *count)).collect();
            println!("  {index}: {}", table(&counts, &PROTECTIONS));
        }
    }
}

fn protection(settings: &Settings) -> usize {
    usize::from(settings.perm_write_protect) + 2 * usize::from(settings.tmp_write_protect)
}

fn count<K: Ord>(counts: &mut BTreeMap<K, u64>, key: K) {
    *counts.entry(key).or_default() += 1;
}

fn table<N: AsRef<str>>(counts: &BTreeMap<usize, u64>, names: &[N]) -> String {
    let cells: Vec<String> =
        counts.iter().map(|(key, count)| format!("{} x {count}", names[*key].as_ref())).collect();
    list(&cells)
}
