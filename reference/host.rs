//! The differential tester's host: random calls that go by the state which the card has reached.

use crate::calls::{block, block_len, damage, is_readable, noise, spoil, window, Call};
use crate::card::{Card, CrcStatus, Password, Refusal, State, Transfer, BLOCK, SPI_BLOCK};
use crate::chance::Rng;
use crate::lines::{lent, lent_mut, replay_settings, CONSOLE_BLOCKS};
use std::collections::VecDeque;

const BLOCK_BYTES: u32 = BLOCK as u32;
const GROUP_BYTES: u32 = 32 * BLOCK_BYTES;
/// More blocks than this are seldom read in one go.
const SWEEP: u32 = 128;

/// The generator, with the card it believes to be talking to.
pub struct Host {
    pub card: Card,
    pub memory: Vec<u8>,
    out: [u8; SPI_BLOCK],
    /// Calls already decided on.
    pub plan: VecDeque<Call>,
    /// Nothing else comes between them.
    pub undisturbed: bool,
    pub is_console: bool,
    /// Power-ups among a thousand calls.
    pub power_ups: u64,
    /// The last call was a power-up.
    pub is_fresh: bool,
    /// Blocks of the largest card so far.
    pub largest: u32,
    /// Blocks written or erased, and the latest of them.
    pub touched: Vec<bool>,
    pub recent: VecDeque<u32>,
    /// The password before the present one.
    pub former: Password,
    /// Where this card is to choose SPI, if it is.
    pub spi_from: Option<State>,
}

/// What a call did to the model.
pub struct Step {
    pub before: Card,
    pub after: Card,
    pub crc_status: Option<CrcStatus>,
    pub power: Option<Result<(), Refusal>>,
}

pub const APPLICATION: [u8; 6] = [13, 22, 23, 41, 42, 51];

impl Host {
    pub fn new(is_console: bool) -> Host {
        let settings = replay_settings();
        let blocks = if is_console { CONSOLE_BLOCKS } else { settings.block_count };
        let memory = vec![0; blocks as usize * BLOCK];
        let card = Card::power_up(settings, lent(&memory, settings.block_count))
            .expect("the bench's settings are allowed");
        Host {
            card,
            memory,
            out: [0; SPI_BLOCK],
            plan: VecDeque::new(),
            undisturbed: false,
            is_console,
            power_ups: 0,
            is_fresh: false,
            largest: settings.block_count,
            touched: vec![false; blocks as usize],
            recent: VecDeque::new(),
            former: Password::default(),
            spi_from: None,
        }
    }

    pub fn apply(&mut self, call: &Call) -> Step {
        let before = self.card.clone();
        let blocks = self.card.settings.block_count;
        let memory = lent_mut(&mut self.memory, blocks);
        let mut crc_status = None;
        let mut power = None;
        match call {
            Call::Cmd(frame, _, is_low) => {
                let _ = self.card.command_frame(frame, *is_low, memory, &mut self.out);
            }
            Call::Blk(packet) => crc_status = self.card.block_in(packet, memory).ok(),
            Call::Take => {
                let _ = self.card.take(memory, &mut self.out);
            }
            Call::Over => {
                let _ = self.card.busy_over(memory);
            }
            Call::Power(settings) => power = Some(self.power_up(settings)),
            Call::Mem(_) | Call::Unreadable(_) => {}
        }
        if self.card.mode.is_spi() && !before.mode.is_spi() {
            self.plan.clear();
        }
        if before.settings.password.is_set() && before.settings.password != self.card.settings.password {
            self.former = before.settings.password;
        }
        let step = Step { before, after: self.card.clone(), crc_status, power };
        self.note_touched(&step);
        step
    }

    fn note_touched(&mut self, step: &Step) {
        let before = &step.before;
        let (first, last) = match (before.transfer, before.erase_start, before.erase_end) {
            (Transfer::Write { address, .. }, ..) if step.crc_status == Some(CrcStatus::Accepted) => {
                (address, address)
            }
            (_, Some(start), Some(end)) if before.state == State::Tran && step.after.state == State::Prg => {
                (start, end)
            }
            _ => return,
        };
        let (first, last) = (first / BLOCK_BYTES, last / BLOCK_BYTES);
        for block in first..=last {
            self.touched[block as usize] = true;
        }
        self.recent.extend(if first == last { vec![first] } else { vec![first, last] });
        while self.recent.len() > 16 {
            self.recent.pop_front();
        }
    }

    pub fn next_call(&mut self, rng: &mut Rng) -> Call {
        self.undisturbed &= !self.plan.is_empty();
        if self.undisturbed {
            return self.plan.pop_front().expect("a plan");
        }
        if !self.is_console {
            return self.sd_call(rng);
        }
        if let Some(call) = self.console_call(rng) {
            return call;
        }
        if self.card.mode.is_spi() {
            return self.spi_call(rng);
        }
        self.choose_spi(rng).unwrap_or_else(|| {
            let call = self.sd_call(rng);
            self.seldom_low(rng, call)
        })
    }

    fn sd_call(&mut self, rng: &mut Rng) -> Call {
        let seldom_seen = matches!(self.card.state, State::Ready | State::Ident | State::Ina);
        match rng.below(1000) {
            0..15 => self.unreadable(rng),
            15..22 => noise(rng),
            22..60 => {
                let call = if rng.chance(60) { self.sensible(rng) } else { self.any_command(rng) };
                damage(rng, call)
            }
            60..100 => self.any_command(rng),
            100..106 => Call::Take,
            106..112 => block(rng),
            112..120 => Call::Over,
            120..300 if matches!(self.card.state, State::Idle | State::Dis) => self.any_command(rng),
            120..600 if seldom_seen => self.any_command(rng),
            _ => self.plan.pop_front().unwrap_or_else(|| self.sensible(rng)),
        }
    }

    pub fn any_command(&mut self, rng: &mut Rng) -> Call {
        let application = self.card.app_mark && rng.chance(70);
        let index = if application { rng.pick(&APPLICATION) } else { rng.below(64) as u8 };
        // Too many resets and inactive cards would leave no time for the rest.
        if index == 0 && rng.chance(80) {
            return self.sensible(rng);
        }
        let argument = self.argument(index, rng);
        Call::command(index, argument)
    }

    /// An argument that the command is likely to look at.
    pub fn argument(&mut self, index: u8, rng: &mut Rng) -> u32 {
        match index {
            13 | 55 | 7 | 9 | 10 if rng.chance(70) => self.own_rca(rng),
            15 if rng.chance(if self.may_go_inactive() { 15 } else { 60 }) => self.own_rca(rng),
            7 | 9 | 10 | 13 | 15 | 55 => self.other_rca(rng),
            8 => {
                rng.weighted(&[(60, 0x1AA), (10, 0x100), (10, 0x2AA), (10, 0), (10, 0xFFFF_F1FF)])
                    ^ rng.below(256) as u32
            }
            16 => block_len(rng),
            24 | 25 if self.is_console && rng.chance(8) => self.card.capacity() - BLOCK_BYTES,
            25 if self.is_console && rng.chance(15) => {
                self.group_start(rng) - 512 * (1 + rng.below(3) as u32)
            }
            41 => window(rng),
            _ => self.address(rng),
        }
    }

    fn may_go_inactive(&self) -> bool {
        !matches!(self.card.state, State::Idle | State::Ready | State::Ident | State::Ina)
    }

    fn own_rca(&self, rng: &mut Rng) -> u32 {
        // The low half is stuff bits.
        let stuff = if rng.chance(80) { 0 } else { rng.word() & 0xFFFF };
        u32::from(self.card.rca) << 16 | stuff
    }

    fn other_rca(&self, rng: &mut Rng) -> u32 {
        let rca = self.card.rca;
        let other = rng.pick(&[
            0,
            1,
            rca.wrapping_add(1),
            rca.wrapping_sub(1),
            0xFFFF,
            self.card.last_rca,
            rng.0 as u16,
        ]);
        u32::from(if other == rca { rca ^ 0x100 } else { other }) << 16
    }

    /// Mostly a legal call in the state reached, and one that leads on.
    pub fn sensible(&mut self, rng: &mut Rng) -> Call {
        if self.card.mode.is_spi() {
            return self.sensible_spi(rng);
        }
        if self.card.app_mark && rng.chance(75) {
            let index = match self.card.state {
                State::Idle => 41,
                _ => rng.pick(&APPLICATION),
            };
            let argument = self.argument(index, rng);
            return Call::command(index, argument);
        }
        match self.card.state {
            State::Idle => self.command(rng, &[(60, 55), (20, 8), (5, 0)]),
            State::Ready => self.command(rng, &[(95, 2), (5, 0)]),
            State::Ident => self.command(rng, &[(95, 3), (5, 0)]),
            State::Stby => self
                .command(rng, &[(400, 7), (60, 3), (80, 9), (60, 10), (80, 13), (80, 55), (10, 15), (5, 0)]),
            State::Tran => self.in_tran(rng),
            State::Data => self.in_data(rng),
            State::Rcv => self.in_rcv(rng),
            State::Prg if rng.chance(60) => Call::Over,
            State::Prg => self.command(rng, &[(100, 13), (120, 7), (60, 55), (3, 15), (3, 0)]),
            State::Dis if rng.chance(35) => Call::Over,
            State::Dis => self.command(rng, &[(300, 7), (80, 13), (60, 55), (6, 15), (4, 0)]),
            State::Ina => {
                let index = rng.below(64) as u8;
                let argument = self.argument(index, rng);
                Call::command(index, argument)
            }
        }
    }

    pub fn command(&mut self, rng: &mut Rng, weights: &[(u64, u8)]) -> Call {
        let index = rng.weighted(weights);
        let argument = match (index, self.card.state) {
            // Select from stby and dis, deselect from the others, mostly.
            (7, State::Stby | State::Dis) if rng.chance(85) => self.own_rca(rng),
            (7, _) if rng.chance(90) => self.other_rca(rng),
            (9 | 10 | 13 | 55, _) if rng.chance(92) => self.own_rca(rng),
            _ => self.argument(index, rng),
        };
        Call::command(index, argument)
    }

    fn in_tran(&mut self, rng: &mut Rng) -> Call {
        if rng.chance(if self.card.locked { 55 } else { 7 }) {
            return self.lock_unlock(rng);
        }
        if self.card.block_len != BLOCK as u32 && rng.chance(25) {
            return Call::command(16, BLOCK as u32);
        }
        let (end, erase, status) = match (self.card.erase_start, self.card.erase_end) {
            (Some(_), Some(_)) => (60, 500, 250),
            (Some(_), None) => (500, 25, 250),
            _ => (10, 10, 50),
        };
        let weights = [
            (50, 16),
            (110, 17),
            (60, 18),
            (110, 24),
            (90, 25),
            (35, 28),
            (45, 29),
            (40, 30),
            (90, 32),
            (end, 33),
            (erase, 38),
            (90, 55),
            (status, 13),
            (10, 7),
            (4, 0),
            (1, 15),
            (6, 255),
        ];
        match rng.weighted(&weights) {
            255 => {
                self.plan_sweep(rng);
                Call::command(16, BLOCK as u32)
            }
            index => self.command(rng, &[(1, index)]),
        }
    }

    /// Reads the whole memory, or of a large one mostly a part, and past its end, so that no
    /// wrong byte stays hidden.
    pub fn plan_sweep(&mut self, rng: &mut Rng) {
        let blocks = self.card.settings.block_count;
        let is_whole = blocks <= SWEEP || rng.chance(3);
        let first = match self.recent.back() {
            _ if is_whole => 0,
            Some(block) if rng.chance(50) => block.saturating_sub(2).min(blocks),
            _ => blocks - 1 - rng.below(u64::from(SWEEP / 4)) as u32,
        };
        let count = if is_whole { blocks + 2 } else { SWEEP / 4 + 2 };
        self.plan.push_back(Call::command(18, first * BLOCK_BYTES));
        self.plan.extend((0..count).map(|_| Call::Take));
        self.plan.push_back(Call::command(12, 0));
    }

    /// Command 3 until FFFFh is followed by 0001h.
    pub fn plan_every_rca(&mut self) {
        let bring_up = [(0, 0), (55, 0), (41, 0x00FF_8000), (2, 0)];
        self.plan.extend(bring_up.map(|(index, argument)| Call::command(index, argument)));
        self.plan.extend((0..=0x1_0000).map(|_| Call::command(3, 0)));
        self.undisturbed = true;
    }

    fn in_data(&mut self, rng: &mut Rng) -> Call {
        let take = match self.card.transfer {
            Transfer::Read { held: true, .. } => 35,
            Transfer::Read { multiple: true, .. } => 90,
            _ => 80,
        };
        if rng.chance(take) {
            return Call::Take;
        }
        self.command(rng, &[(250, 12), (120, 13), (100, 55), (30, 7), (6, 0), (4, 15)])
    }

    fn in_rcv(&mut self, rng: &mut Rng) -> Call {
        let blk = match self.card.transfer {
            Transfer::Write { held: true, .. } => 40,
            Transfer::Write { multiple: true, .. } => 90,
            Transfer::LockUnlock => 85,
            _ => 75,
        };
        if rng.chance(blk) {
            return self.block(rng);
        }
        self.command(rng, &[(250, 12), (120, 13), (100, 55), (10, 7), (6, 0), (4, 15)])
    }

    pub fn unreadable(&mut self, rng: &mut Rng) -> Call {
        let line = match rng.below(if self.is_console { 8 } else { 4 }) {
            0 => self.sensible(rng).line(),
            1 => block(rng).line(),
            2 => self.any_command(rng).line(),
            3 => rng.pick(&[b"take", b"over"]).to_vec(),
            _ => self.console_line(rng),
        };
        let line = if is_readable(&line, self.is_console) { spoil(rng, line) } else { line };
        if is_readable(&line, self.is_console) {
            return self.sensible(rng);
        }
        Call::Unreadable(line)
    }

    fn address(&self, rng: &mut Rng) -> u32 {
        const BESIDE: [u32; 11] = [0, 1, 2, 211, 212, 213, 256, 510, 511, u32::MAX, u32::MAX - 1];
        const FAR: [u32; 6] = [0x8000_0000, u32::MAX, 0xFFFF_FE00, 0x0001_0000, 0x0100_0000, 0x8000_8000];
        let capacity = self.card.capacity();
        if self.is_console && !self.recent.is_empty() && rng.chance(35) {
            return self.recent_block(rng).wrapping_mul(BLOCK_BYTES);
        }
        match rng.below(100) {
            0..45 => rng.below(u64::from(capacity / BLOCK_BYTES)) as u32 * BLOCK_BYTES,
            45..58 => self.corner(rng),
            58..76 => self.corner(rng).wrapping_add(rng.pick(&BESIDE)),
            76..90 => rng.below(u64::from(capacity)) as u32,
            90..95 => capacity - 512 * rng.below(4) as u32,
            95..98 => rng.pick(&FAR),
            _ => rng.word(),
        }
    }

    /// A block at the beginning, at the start of a group or at the end.
    fn corner(&self, rng: &mut Rng) -> u32 {
        let capacity = self.card.capacity();
        let group = self.group_start(rng);
        let last = capacity - BLOCK_BYTES;
        rng.pick(&[0, 512, group - 512, group, group + 512, last, capacity, capacity + 512])
    }

    /// Of any group but the first; the end, if there is no other.
    fn group_start(&self, rng: &mut Rng) -> u32 {
        let capacity = self.card.capacity();
        let others = u64::from((capacity - 1) / GROUP_BYTES).max(1);
        (GROUP_BYTES * (1 + rng.below(others) as u32)).min(capacity)
    }
}
