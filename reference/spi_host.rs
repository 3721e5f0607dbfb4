//! What the differential tester's host does to reach SPI mode, and in it.

use crate::calls::{damage, noise, Call};
use crate::card::spi::Phase;
use crate::card::{
    Mode, State, Transfer, ADDRESS_ERROR, BLOCK, ERASE_RESET, LOCK_UNLOCK_FAILED, OUT_OF_RANGE, WP_VIOLATION,
};
use crate::chance::Rng;
use crate::host::{Host, APPLICATION};
use crate::spi_calls::{damage_spi, led, lone_byte, missized};

/// Bits that are seldom held when SPI is chosen, and hardly ever.
const SELDOM_HELD: u32 = OUT_OF_RANGE | LOCK_UNLOCK_FAILED;
const HARDLY_HELD: u32 = ADDRESS_ERROR | WP_VIOLATION | ERASE_RESET;

impl Host {
    /// Where this card is to choose SPI: in any state, or never.
    pub fn decide_on_spi(&mut self, rng: &mut Rng) {
        use State::*;
        let states = [Idle, Idle, Idle, Ready, Ident, Stby, Tran, Tran, Data, Rcv, Prg, Dis, Ina];
        self.spi_from = rng.chance(58).then(|| rng.pick(&states));
    }

    /// Command 0 with chip select low, at times behind frames that leave bits for it to show.
    pub fn choose_spi(&mut self, rng: &mut Rng) -> Option<Call> {
        let state = self.spi_from?;
        let reset = || Call::command(0, 0).selected(true);
        let holds = |bits| self.card.status & bits != 0 && state != State::Idle;
        let chance = match self.card.state {
            State::Ina => 3,
            _ if holds(HARDLY_HELD) => 60,
            _ if holds(SELDOM_HELD) => 8,
            here if here == state => 30,
            _ => 0,
        };
        if !rng.chance(chance) {
            // marks that a silent command drops leave a bit behind
            let drops =
                state == State::Stby && self.card.state == State::Tran && self.card.erase_start.is_some();
            return (drops && rng.chance(40)).then(|| Call::command(7, 0));
        }
        Some(match rng.below(100) {
            0..12 => damage(rng, reset()).selected(true),
            12..20 => Call::command(63, 0).selected(true),
            20..28 => Call::command(0, rng.word()).selected(true),
            _ => reset(),
        })
    }

    /// Chip select counts with 0 alone, which has its own place.
    pub fn seldom_low(&self, rng: &mut Rng, call: Call) -> Call {
        let is_reset = matches!(call, Call::Cmd([0x40, ..], ..));
        if is_reset || !rng.chance(8) {
            return call;
        }
        call.selected(true)
    }

    pub fn spi_call(&mut self, rng: &mut Rng) -> Call {
        let seldom_seen = match self.card.transfer {
            Transfer::Read { multiple, held, .. } | Transfer::Write { multiple, held, .. } => {
                !multiple || held
            }
            _ => false,
        };
        let call = match rng.below(1000) {
            0..12 => self.unreadable(rng),
            12..24 => noise(rng),
            24..100 => {
                let call = match rng.below(100) {
                    0..12 => self.command(rng, &[(1, 8)]),
                    12..60 => self.sensible_spi(rng),
                    _ => self.any_command(rng),
                };
                damage_spi(rng, call)
            }
            100..190 => self.any_command(rng),
            230..500 if seldom_seen => self.any_command(rng),
            190..198 => Call::Take,
            198..206 => self.block_spi(rng),
            206..212 => lone_byte(rng, 50),
            212..220 => Call::Over,
            220..226 => missized(rng, vec![0xFE; self.card.block_size()]),
            _ => self.plan.pop_front().unwrap_or_else(|| self.sensible_spi(rng)),
        };
        call.selected(rng.chance(50))
    }

    /// Mostly an allowed call, and one that leads on.
    pub fn sensible_spi(&mut self, rng: &mut Rng) -> Call {
        let crc_on = self.card.mode == Mode::Spi { crc_on: true };
        let any = rng.word();
        match self.card.phase() {
            _ if self.card.status & ADDRESS_ERROR != 0 && rng.chance(12) => Call::command(0, 0),
            Phase::Idle | Phase::Ready if self.card.app_mark && rng.chance(80) => {
                let index = match self.card.phase() {
                    Phase::Idle if rng.chance(90) => 41,
                    _ => rng.pick(&APPLICATION),
                };
                self.command(rng, &[(1, index)])
            }
            Phase::Idle | Phase::Ready if rng.chance(if crc_on { 1 } else { 6 }) => {
                Call::command(59, any | 1)
            }
            Phase::Idle => self.command(rng, &[(70, 55), (12, 8), (8, 58), (3, 59), (3, 0)]),
            Phase::Ready => self.in_ready(rng),
            Phase::Open if self.card.transfer.is_read() => self.in_read(rng),
            Phase::Open => self.in_write(rng),
            Phase::Busy if rng.chance(60) => Call::Over,
            Phase::Busy => self.command(rng, &[(100, 13), (4, 0)]),
        }
    }

    fn in_ready(&mut self, rng: &mut Rng) -> Call {
        if rng.chance(if self.card.locked { 50 } else { 8 }) {
            return self.lock_unlock(rng);
        }
        if self.card.block_len != BLOCK as u32 && rng.chance(25) {
            return Call::command(16, BLOCK as u32);
        }
        let (end, erase, status) = match (self.card.erase_start, self.card.erase_end) {
            (Some(_), Some(_)) => (60, 500, 250),
            (Some(_), None) => (500, 25, 250),
            _ => (10, 10, 50),
        };
        let reading = [(110, 17), (60, 18), (40, 30), (25, 9), (25, 10), (50, 16), (90, 55), (status, 13)];
        let writing = [(110, 24), (110, 25), (40, 28), (50, 29), (90, 32), (end, 33), (erase, 38)];
        let others = [(8, 8), (20, 58), (15, 59), (4, 0), (5, 255)];
        match rng.weighted(&[&reading[..], &writing, &others].concat()) {
            255 => {
                self.plan_sweep(rng);
                Call::command(16, BLOCK as u32)
            }
            index => self.command(rng, &[(1, index)]),
        }
    }

    fn in_read(&mut self, rng: &mut Rng) -> Call {
        let take = match self.card.transfer {
            Transfer::Read { held: true, .. } => 30,
            Transfer::Read { multiple: true, .. } => 88,
            _ => 72,
        };
        if rng.chance(take) {
            return Call::Take;
        }
        self.command(rng, &[(250, 12), (150, 13), (12, 0)])
    }

    fn in_write(&mut self, rng: &mut Rng) -> Call {
        let (is_multiple, is_held) = match self.card.transfer {
            Transfer::Write { multiple, held, .. } => (multiple, held),
            _ => (false, false),
        };
        match rng.below(100) {
            0..4 => {
                let packet = self.due_packet(rng);
                missized(rng, [&[self.card.start_token()], &packet[..]].concat())
            }
            4..8 if is_multiple => lone_byte(rng, 0),
            8..14 if is_multiple => lone_byte(rng, 100),
            14..34 if is_held => lone_byte(rng, 100),
            4..6 => lone_byte(rng, 60),
            34..60 if is_held => self.command(rng, &[(200, 12), (200, 13), (15, 0)]),
            6..20 if !is_multiple => self.command(rng, &[(150, 12), (150, 13), (15, 0)]),
            14..20 => self.command(rng, &[(100, 12), (250, 13), (15, 0)]),
            _ => self.block_spi(rng),
        }
    }

    /// A block for the transfer that is open.
    fn block_spi(&mut self, rng: &mut Rng) -> Call {
        let packet = self.due_packet(rng);
        Call::Blk(led(rng, &self.card, &packet))
    }

    fn due_packet(&self, rng: &mut Rng) -> Vec<u8> {
        match self.block(rng) {
            Call::Blk(packet) => packet,
            _ => unreachable!("a block was asked for"),
        }
    }
}
