//! What the differential tester's host does beside replay's lines when it talks to a console.

use crate::calls::{Call, Power};
use crate::card::{Card, Refusal, State, Transfer};
use crate::chance::Rng;
use crate::host::Host;
use crate::lines::{lent, CONSOLE_BLOCKS};

/// Blocks that the last look shows at most, those at the ends aside.
const LAST_LOOK: usize = 64;

impl Host {
    /// Decides how restless this life is and, mostly, on a power-up at its beginning.
    pub fn begin_console(&mut self, rng: &mut Rng) {
        self.power_ups = rng.pick(&[0, 2, 6, 12, 25]);
        self.decide_on_spi(rng);
        if rng.chance(80) {
            if rng.chance(30) {
                self.plan_bring_up(rng.below(5) as usize);
            }
            self.plan.push_back(Call::Power(Power::random(rng)));
        }
    }

    /// An inactive card that nothing wakes any more.
    pub fn is_lost(&self) -> bool {
        self.card.state == State::Ina && self.power_ups == 0 && !self.undisturbed
    }

    pub fn power_up(&mut self, power: &Power) -> Result<(), Refusal> {
        let settings = power.settings();
        self.card = Card::power_up(settings, lent(&self.memory, settings.block_count))?;
        self.largest = self.largest.max(settings.block_count);
        self.plan.clear();
        self.is_fresh = true;
        Ok(())
    }

    pub fn console_call(&mut self, rng: &mut Rng) -> Option<Call> {
        if std::mem::take(&mut self.is_fresh) {
            self.decide_on_spi(rng);
            if rng.chance(50) {
                self.plan_bring_up(usize::MAX);
            }
        }
        let power_ups = match self.card.state {
            State::Ina => 6 * self.power_ups,
            State::Ready | State::Ident => 2 * self.power_ups,
            _ => self.power_ups,
        };
        if rng.below(1000) < power_ups {
            return Some(Call::Power(self.power(rng)));
        }
        let other_sizes = match self.card.transfer {
            _ if self.card.mode.is_spi() => 0,
            Transfer::LockUnlock => 80,
            Transfer::Write { .. } => 35,
            _ => 4,
        };
        if rng.below(1000) < other_sizes {
            return Some(self.sized_block(rng));
        }
        (rng.below(1000) < 20).then(|| Call::Mem(self.shown_block(rng)))
    }

    /// Any settings, at times those of a card of the same size.
    fn power(&self, rng: &mut Rng) -> Power {
        let power = Power::random(rng);
        let count = if rng.chance(20) { self.card.settings.block_count } else { power.count };
        Power { count, ..power }
    }

    /// From idle to tran, or the first few commands of the way.
    fn plan_bring_up(&mut self, most: usize) {
        let polls = usize::from(self.card.polls_left) + 1;
        let start = [(55, 0), (41, 0x00FF_8000)].into_iter().cycle().take(2 * polls);
        let rca = u32::from(self.card.last_rca) + 1;
        let way = start.chain([(2, 0), (3, 0), (7, rca << 16)]);
        self.plan.extend(way.take(most).map(|(index, argument)| Call::command(index, argument)));
    }

    /// A line to be spoiled, if it is not wrong already.
    pub fn console_line(&mut self, rng: &mut Rng) -> Vec<u8> {
        match rng.below(8) {
            0 => self.sized_block(rng).line(),
            1 | 2 => Call::Mem(self.shown_block(rng)).line(),
            3 | 4 => {
                // one bit too many, or any flags
                let flags = if rng.chance(50) { rng.below(4) as u8 | 4 << rng.below(6) } else { rng.byte() };
                Call::Power(Power { flags, ..self.power(rng) }).line()
            }
            _ => Call::Power(self.power(rng)).line(),
        }
    }

    /// One of the blocks written or erased lately, or a neighbour.
    pub fn recent_block(&self, rng: &mut Rng) -> u32 {
        let block = self.recent[rng.below(self.recent.len() as u64) as usize];
        block.wrapping_add(rng.pick(&[0, 0, 0, 0, 1, u32::MAX]))
    }

    fn shown_block(&self, rng: &mut Rng) -> u32 {
        let blocks = self.card.settings.block_count;
        let last = CONSOLE_BLOCKS - 1;
        match rng.below(100) {
            0..45 if !self.recent.is_empty() => self.recent_block(rng),
            0..65 => rng.below(u64::from(blocks)) as u32,
            65..78 => blocks - 2 + rng.below(4) as u32,
            78..86 => rng.pick(&[0, 1, last - 1, last]),
            86..94 => rng.below(u64::from(CONSOLE_BLOCKS)) as u32,
            94..97 => last + 1 + rng.below(3) as u32,
            _ => rng.pick(&[4096, 0x0001_0000, 0x0080_0000, 0x8000_0000, 0xFFFF_FFFF]),
        }
    }

    /// Shows the memory at the end of a life: all that may have changed, or a choice of it.
    pub fn plan_last_look(&mut self, rng: &mut Rng) {
        let mut blocks: Vec<u32> = if self.largest as usize <= LAST_LOOK {
            (0..self.largest).collect()
        } else {
            (0..CONSOLE_BLOCKS).filter(|&block| self.touched[block as usize]).collect()
        };
        while blocks.len() > LAST_LOOK {
            blocks.swap_remove(rng.below(blocks.len() as u64) as usize);
        }
        blocks.extend([0, self.largest - 1, self.largest, rng.below(2048) as u32, CONSOLE_BLOCKS - 1]);
        self.plan = blocks.into_iter().map(Call::Mem).collect();
        self.undisturbed = true;
    }
}
