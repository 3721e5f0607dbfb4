//! Reference SD memory card: standard capacity, SD bus mode with one data line, and SPI mode.
//!
//! Written from papers 01 and 02, as a second opinion on the card proper. Names are those of the
//! Physical Layer Specification; memory and output buffers belong to the caller. Frames and responses
//! of the modes are in sd.rs and spi.rs, what a block of command 42 does is in lock.rs.

#![allow(dead_code)]

#[path = "lock.rs"]
mod lock;
#[path = "registers.rs"]
mod registers;
#[path = "sd.rs"]
mod sd;
#[path = "spi.rs"]
pub mod spi;

pub use lock::{Password, LONGEST_PASSWORD};
pub use spi::{Mode, SPI_BLOCK};

pub const BLOCK: usize = 512;
pub const PACKET: usize = BLOCK + 2;
const CHECK: usize = PACKET - BLOCK;
const LONGEST_RESPONSE: usize = 17;

const BLOCK_BYTES: u32 = BLOCK as u32;
const GROUP_BYTES: u32 = 32 * BLOCK_BYTES;
const MARK_BYTES: usize = 256;

pub const OUT_OF_RANGE: u32 = 1 << 31;
pub const ADDRESS_ERROR: u32 = 1 << 30;
pub const BLOCK_LEN_ERROR: u32 = 1 << 29;
pub const ERASE_SEQ_ERROR: u32 = 1 << 28;
pub const ERASE_PARAM: u32 = 1 << 27;
pub const WP_VIOLATION: u32 = 1 << 26;
pub const CARD_IS_LOCKED: u32 = 1 << 25;
pub const LOCK_UNLOCK_FAILED: u32 = 1 << 24;
pub const COM_CRC_ERROR: u32 = 1 << 23;
pub const ILLEGAL_COMMAND: u32 = 1 << 22;
pub const WP_ERASE_SKIP: u32 = 1 << 15;
pub const ERASE_RESET: u32 = 1 << 13;
pub const READY_FOR_DATA: u32 = 1 << 8;
pub const APP_CMD: u32 = 1 << 5;

/// The kept bits of clear condition C.
const CLEAR_BY_READ: u32 = OUT_OF_RANGE
    | ADDRESS_ERROR
    | BLOCK_LEN_ERROR
    | ERASE_SEQ_ERROR
    | ERASE_PARAM
    | WP_VIOLATION
    | LOCK_UNLOCK_FAILED
    | WP_ERASE_SKIP
    | ERASE_RESET;
const KEPT: u32 = CLEAR_BY_READ | COM_CRC_ERROR | ILLEGAL_COMMAND;

const OCR_WINDOW: u32 = 0x00FF_8000;
const OCR_READY: u32 = 1 << 31;

const SCR: [u8; 8] = [0x02, 0x01, 0, 0, 0, 0, 0, 0];

/// Why a call was refused; the value is 01's row number.
#[derive(Clone, Copy, Debug, PartialEq, Eq)]
pub enum Refusal {
    Size = 1,
    Unsound = 2,
    Memory = 3,
    Output = 4,
    State = 5,
    Setting = 6,
}

/// What the data line answers to a block; in SPI it is a token (spi.rs).
#[derive(Clone, Copy, Debug, PartialEq, Eq)]
pub enum CrcStatus {
    Silence,
    /// 010
    Accepted,
    /// 101
    Rejected,
}

#[derive(Clone, Copy, Debug, PartialEq, Eq)]
pub enum State {
    Idle,
    Ready,
    Ident,
    Stby,
    Tran,
    Data,
    Rcv,
    Prg,
    Dis,
    Ina,
}

#[derive(Clone, Copy, Debug, Default, PartialEq, Eq)]
pub struct Cid {
    pub mid: u8,
    pub oid: u16,
    pub pnm: [u8; 5],
    pub prv: u8,
    pub psn: u32,
    pub mdt: u16,
}

#[derive(Clone, Copy, Debug, PartialEq, Eq)]
pub struct Settings {
    pub block_count: u32,
    pub start_polls: u8,
    pub cid: Cid,
    pub perm_write_protect: bool,
    pub tmp_write_protect: bool,
    pub password: Password,
}

/// An open transfer. Only memory blocks can be held, so only they say so. CSD and CID are blocks in SPI alone.
#[derive(Clone, Copy, Debug, PartialEq, Eq)]
pub enum Transfer {
    None,
    Read { multiple: bool, address: u32, held: bool },
    WriteProt { address: u32 },
    SdStatus,
    NumWrBlocks,
    Scr,
    Csd,
    Cid,
    Write { multiple: bool, address: u32, held: bool },
    LockUnlock,
}

#[derive(Clone, Debug, PartialEq, Eq)]
pub struct Card {
    /// As they are now: command 42 changes the password, force erase the temporary protection as well.
    pub settings: Settings,
    pub locked: bool,
    pub mode: Mode,
    /// SPI goes only by idle and prg of it.
    pub state: State,
    pub rca: u16,
    pub last_rca: u16,
    pub block_len: u32,
    pub polls_left: u8,
    pub status: u32,
    pub app_mark: bool,
    pub erase_start: Option<u32>,
    pub erase_end: Option<u32>,
    pub transfer: Transfer,
    pub num_wr_blocks: u32,
    pub write_prot: [u8; MARK_BYTES],
}

#[derive(Clone, Copy, Debug, PartialEq, Eq)]
pub enum Command {
    GoIdleState,
    AllSendCid,
    SendRelativeAddr,
    SelectCard,
    DeselectCard,
    SendIfCond,
    SendCsd,
    SendCid,
    StopTransmission,
    SendStatus,
    GoInactiveState,
    SetBlocklen,
    ReadSingleBlock,
    ReadMultipleBlock,
    WriteBlock,
    WriteMultipleBlock,
    SetWriteProt,
    ClrWriteProt,
    SendWriteProt,
    EraseWrBlkStart,
    EraseWrBlkEnd,
    Erase,
    LockUnlock,
    AppCmd,
    ReadOcr,
    CrcOnOff,
    SdStatus,
    SendNumWrBlocks,
    SetWrBlkEraseCount,
    SdSendOpCond,
    SetClrCardDetect,
    SendScr,
}

impl Transfer {
    pub fn is_read(self) -> bool {
        !matches!(self, Transfer::None) && !self.is_write()
    }

    pub fn is_write(self) -> bool {
        matches!(self, Transfer::Write { .. } | Transfer::LockUnlock)
    }
}

impl Command {
    /// What an index means in either mode. After 55 one that has an A row is only that.
    fn of(index: u8, app_mark: bool) -> Option<Command> {
        use Command::*;
        Some(match index {
            13 if app_mark => SdStatus,
            22 if app_mark => SendNumWrBlocks,
            23 if app_mark => SetWrBlkEraseCount,
            41 if app_mark => SdSendOpCond,
            42 if app_mark => SetClrCardDetect,
            51 if app_mark => SendScr,
            0 => GoIdleState,
            2 => AllSendCid,
            3 => SendRelativeAddr,
            7 => SelectCard,
            8 => SendIfCond,
            9 => SendCsd,
            10 => SendCid,
            12 => StopTransmission,
            13 => SendStatus,
            15 => GoInactiveState,
            16 => SetBlocklen,
            17 => ReadSingleBlock,
            18 => ReadMultipleBlock,
            24 => WriteBlock,
            25 => WriteMultipleBlock,
            28 => SetWriteProt,
            29 => ClrWriteProt,
            30 => SendWriteProt,
            32 => EraseWrBlkStart,
            33 => EraseWrBlkEnd,
            38 => Erase,
            42 => LockUnlock,
            55 => AppCmd,
            58 => ReadOcr,
            59 => CrcOnOff,
            _ => return None,
        })
    }

    /// Any other command that runs clears pending erase marks. SEND_STATUS may come between them (02, order 1),
    /// SD_STATUS, which has its index after 55, may not.
    fn keeps_erase_marks(self) -> bool {
        use Command::*;
        matches!(self, GoIdleState | SendStatus | EraseWrBlkStart | EraseWrBlkEnd | Erase)
    }

    /// The column of a locked card. 55 is not in the standard's list, but no locked card would come up without.
    fn runs_locked(self) -> bool {
        use Command::*;
        matches!(
            self,
            GoIdleState
                | AllSendCid
                | SendRelativeAddr
                | SelectCard
                | DeselectCard
                | SendIfCond
                | SendCsd
                | SendCid
                | StopTransmission
                | SendStatus
                | GoInactiveState
                | SetBlocklen
                | LockUnlock
                | AppCmd
                | ReadOcr
                | CrcOnOff
                | SdSendOpCond
                | SetClrCardDetect
        )
    }
}

impl Settings {
    pub fn are_allowed(&self) -> bool {
        (4..=65_536).contains(&self.block_count)
            && self.c_size().is_some()
            && self.start_polls <= 15
            && self.cid.mdt <= 0xFFF
            && self.password.is_allowed()
    }

    fn fit(&self, memory: &[u8]) -> bool {
        memory.len() as u64 == u64::from(self.block_count) * BLOCK as u64
    }
}

// The five calls.
impl Card {
    /// Refusals 3, 6.
    pub fn power_up(settings: Settings, memory: &[u8]) -> Result<Card, Refusal> {
        if !settings.fit(memory) {
            return Err(Refusal::Memory);
        }
        if !settings.are_allowed() {
            return Err(Refusal::Setting);
        }
        let settings = Settings { password: settings.password.trimmed(), ..settings };
        Ok(Card {
            settings,
            locked: settings.password.is_set(),
            mode: Mode::Sd,
            state: State::Idle,
            rca: 0,
            last_rca: 0,
            block_len: BLOCK_BYTES,
            polls_left: settings.start_polls,
            status: 0,
            app_mark: false,
            erase_start: None,
            erase_end: None,
            transfer: Transfer::None,
            num_wr_blocks: 0,
            write_prot: [0; MARK_BYTES],
        })
    }

    /// `low` is chip select. Gives the length of the response written to `out`; 0 is silence.
    /// Refusals 1, 2, 3, 4.
    pub fn command_frame(
        &mut self,
        frame: &[u8],
        low: bool,
        memory: &mut [u8],
        out: &mut [u8],
    ) -> Result<usize, Refusal> {
        let frame: &[u8; 6] = frame.try_into().map_err(|_| Refusal::Size)?;
        self.check_record(memory)?;
        if out.len() < LONGEST_RESPONSE {
            return Err(Refusal::Output);
        }
        Ok(match self.mode {
            Mode::Sd => self.receive_sd(frame, low, memory, out),
            Mode::Spi { crc_on } => self.receive_spi(frame, crc_on, memory, out),
        })
    }

    /// Refusals 2, 1, 3, 5.
    pub fn block_in(&mut self, block: &[u8], memory: &mut [u8]) -> Result<CrcStatus, Refusal> {
        self.check_sound()?;
        if !self.is_due(block.len()) {
            return Err(Refusal::Size);
        }
        self.check_memory(memory)?;
        if !self.transfer.is_write() {
            return Err(Refusal::State);
        }
        Ok(match self.mode {
            Mode::Sd => self.packet_in(block, true, memory),
            Mode::Spi { crc_on } => self.block_in_spi(block, crc_on, memory),
        })
    }

    /// Gives the length of the block written to `out`; 0 is silence.
    /// Refusals 2, 3, 4, 5.
    pub fn take(&mut self, memory: &[u8], out: &mut [u8]) -> Result<usize, Refusal> {
        self.check_record(memory)?;
        let lead = self.mode.lead();
        if out.len() < lead.len() + PACKET {
            return Err(Refusal::Output);
        }
        if !self.transfer.is_read() {
            return Err(Refusal::State);
        }
        let length = self.next_packet(memory, &mut out[lead.len()..]);
        if length == 0 {
            return Ok(0);
        }
        out[..lead.len()].copy_from_slice(lead);
        Ok(lead.len() + length)
    }

    /// Refusals 2, 3, 5.
    pub fn busy_over(&mut self, memory: &[u8]) -> Result<(), Refusal> {
        self.check_record(memory)?;
        self.state = match self.state {
            State::Prg => State::Tran,
            State::Dis => State::Stby,
            _ => return Err(Refusal::State),
        };
        Ok(())
    }
}

// Refusals 2 and 3.
impl Card {
    fn check_record(&self, memory: &[u8]) -> Result<(), Refusal> {
        self.check_sound()?;
        self.check_memory(memory)
    }

    fn check_sound(&self) -> Result<(), Refusal> {
        if self.is_sound() {
            Ok(())
        } else {
            Err(Refusal::Unsound)
        }
    }

    fn check_memory(&self, memory: &[u8]) -> Result<(), Refusal> {
        if self.settings.fit(memory) {
            Ok(())
        } else {
            Err(Refusal::Memory)
        }
    }

    pub fn is_sound(&self) -> bool {
        // The settings come first: the other conditions reckon with the block count.
        self.settings.are_allowed()
            && !(self.locked && !self.settings.password.is_set())
            && self.polls_left <= self.settings.start_polls
            && (1..=BLOCK_BYTES).contains(&self.block_len)
            && self.transfer_is_sound()
            && self.num_wr_blocks <= self.settings.block_count
            && self.status & !KEPT == 0
            && self.erase_start.is_none_or(|address| address < self.capacity())
            && self.erase_end.is_none_or(|address| address < self.capacity())
            && self.write_prot_is_sound()
            && (self.mode != Mode::Sd || self.bus_state_is_sound())
    }

    fn transfer_is_sound(&self) -> bool {
        match self.transfer {
            Transfer::Read { address, .. } | Transfer::WriteProt { address } => address <= self.capacity(),
            Transfer::Write { address, .. } => {
                address <= self.capacity()
                    && address % BLOCK_BYTES == 0
                    && self.num_wr_blocks <= address / BLOCK_BYTES
            }
            _ => true,
        }
    }

    fn write_prot_is_sound(&self) -> bool {
        let groups = self.settings.block_count.div_ceil(GROUP_BYTES / BLOCK_BYTES) as usize;
        let mut beyond = self.write_prot[groups / 8..].iter();
        beyond.next().is_none_or(|byte| byte >> (groups % 8) == 0) && beyond.all(|&byte| byte == 0)
    }
}

// The commands that both modes have.
impl Card {
    fn clear_erase_marks_before(&mut self, command: Command) {
        if !command.keeps_erase_marks() && self.clear_erase_marks() {
            self.status |= ERASE_RESET;
        }
    }

    /// An error is the status bit of the check that failed; the response shows it.
    fn execute(&mut self, command: Command, argument: u32, memory: &mut [u8]) -> Result<(), u32> {
        use Command::*;
        match command {
            SendStatus | AppCmd | SetWrBlkEraseCount | SetClrCardDetect => {}
            StopTransmission => self.stop_transmission(),
            SetBlocklen => self.set_blocklen(argument)?,
            ReadSingleBlock => self.read(false, argument)?,
            ReadMultipleBlock => self.read(true, argument)?,
            WriteBlock => self.write(false, argument)?,
            WriteMultipleBlock => self.write(true, argument)?,
            SetWriteProt => self.change_write_prot(argument, true)?,
            ClrWriteProt => self.change_write_prot(argument, false)?,
            SendWriteProt => {
                self.check_range(argument)?;
                self.send_data(Transfer::WriteProt { address: argument });
            }
            EraseWrBlkStart => self.set_erase_start(argument)?,
            EraseWrBlkEnd => self.set_erase_end(argument)?,
            Erase => self.erase(memory)?,
            LockUnlock => self.receive_data(Transfer::LockUnlock),
            SdStatus => self.send_data(Transfer::SdStatus),
            SendNumWrBlocks => self.send_data(Transfer::NumWrBlocks),
            SendScr => self.send_data(Transfer::Scr),
            own => unreachable!("{own:?} is not the same in both modes"),
        }
        Ok(())
    }

    fn stop_transmission(&mut self) {
        self.leave_transfer(if self.transfer.is_read() { State::Tran } else { State::Prg });
    }

    fn set_blocklen(&mut self, length: u32) -> Result<(), u32> {
        if !(1..=BLOCK_BYTES).contains(&length) {
            return Err(BLOCK_LEN_ERROR);
        }
        self.block_len = length;
        Ok(())
    }

    fn read(&mut self, multiple: bool, address: u32) -> Result<(), u32> {
        self.check_read(address)?;
        self.send_data(Transfer::Read { multiple, address, held: false });
        Ok(())
    }

    /// A22 counts anew.
    fn write(&mut self, multiple: bool, address: u32) -> Result<(), u32> {
        self.check_write(address)?;
        self.num_wr_blocks = 0;
        self.receive_data(Transfer::Write { multiple, address, held: false });
        Ok(())
    }

    fn change_write_prot(&mut self, address: u32, is_set: bool) -> Result<(), u32> {
        self.check_range(address)?;
        let (byte, bit) = mark_of(address / GROUP_BYTES);
        if is_set {
            self.write_prot[byte] |= bit;
        } else {
            self.write_prot[byte] &= !bit;
        }
        self.state = State::Prg;
        Ok(())
    }

    fn set_erase_start(&mut self, address: u32) -> Result<(), u32> {
        self.check_range(address)?;
        self.erase_start = Some(address);
        self.erase_end = None;
        Ok(())
    }

    fn set_erase_end(&mut self, address: u32) -> Result<(), u32> {
        if self.erase_start.is_none() {
            self.clear_erase_marks();
            return Err(ERASE_SEQ_ERROR);
        }
        self.check_range(address)?;
        self.erase_end = Some(address);
        Ok(())
    }

    fn erase(&mut self, memory: &mut [u8]) -> Result<(), u32> {
        let marks = (self.erase_start.take(), self.erase_end.take());
        let (Some(start), Some(end)) = marks else {
            return Err(ERASE_SEQ_ERROR);
        };
        if end < start {
            return Err(ERASE_PARAM);
        }
        for block in start / BLOCK_BYTES..=end / BLOCK_BYTES {
            let address = block * BLOCK_BYTES;
            if self.is_protected(address) {
                self.status |= WP_ERASE_SKIP;
            } else {
                memory[address as usize..][..BLOCK].fill(0);
            }
        }
        self.state = State::Prg;
        Ok(())
    }
}

// Blocks, as they are behind a token.
impl Card {
    /// Of a write transfer; its check counts where it is judged.
    fn packet_in(&mut self, packet: &[u8], is_judged: bool, memory: &mut [u8]) -> CrcStatus {
        let (payload, check) = packet.split_at(packet.len() - CHECK);
        let is_good = !is_judged || check == crc16(payload).to_be_bytes();
        match self.transfer {
            Transfer::Write { held: true, .. } => CrcStatus::Silence,
            Transfer::Write { multiple: true, .. } if !is_good => {
                self.hold(0);
                CrcStatus::Rejected
            }
            _ if !is_good => {
                self.leave_transfer(State::Tran);
                CrcStatus::Rejected
            }
            Transfer::Write { multiple, address, .. } => self.store(multiple, address, payload, memory),
            _ => {
                self.lock_unlock(payload, memory);
                self.leave_transfer(State::Prg);
                CrcStatus::Accepted
            }
        }
    }

    fn store(&mut self, multiple: bool, address: u32, payload: &[u8], memory: &mut [u8]) -> CrcStatus {
        if let Err(error) = self.check_range(address).and_then(|()| self.check_protection(address)) {
            self.hold(error);
            return CrcStatus::Silence;
        }
        memory[address as usize..][..BLOCK].copy_from_slice(payload);
        self.num_wr_blocks += 1;
        if multiple {
            self.transfer = Transfer::Write { multiple, address: address + BLOCK_BYTES, held: false };
        } else {
            self.leave_transfer(State::Prg);
        }
        CrcStatus::Accepted
    }

    /// Of a read transfer; gives its length.
    fn next_packet(&mut self, memory: &[u8], out: &mut [u8]) -> usize {
        match self.transfer {
            Transfer::Read { held: true, .. } => 0,
            Transfer::Read { multiple, address, .. } => self.send_block(multiple, address, memory, out),
            Transfer::WriteProt { address } => {
                self.send_register(&self.write_prot_bits(address).to_be_bytes(), out)
            }
            Transfer::SdStatus => self.send_register(&[0; 64], out),
            Transfer::NumWrBlocks => self.send_register(&self.num_wr_blocks.to_be_bytes(), out),
            Transfer::Scr => self.send_register(&SCR, out),
            Transfer::Csd => self.send_register(&self.settings.csd_register(), out),
            Transfer::Cid => self.send_register(&self.settings.cid_register(), out),
            Transfer::None | Transfer::Write { .. } | Transfer::LockUnlock => 0,
        }
    }

    fn send_block(&mut self, multiple: bool, address: u32, memory: &[u8], out: &mut [u8]) -> usize {
        if let Err(error) = self.check_read(address) {
            self.hold(error);
            return 0;
        }
        if multiple {
            self.transfer = Transfer::Read { multiple, address: address + self.block_len, held: false };
        } else {
            self.leave_transfer(State::Tran);
        }
        send(&memory[address as usize..][..self.block_len as usize], out)
    }

    /// Register transfers are single: the take that sends one ends it.
    fn send_register(&mut self, payload: &[u8], out: &mut [u8]) -> usize {
        self.leave_transfer(State::Tran);
        send(payload, out)
    }

    /// Bytes of the packet that is due, its check included; also where none is.
    pub fn packet_size(&self) -> usize {
        match self.transfer {
            Transfer::LockUnlock => self.block_len as usize + CHECK,
            _ => PACKET,
        }
    }

    /// With its token, where there is one.
    pub fn block_size(&self) -> usize {
        self.mode.lead().len() + self.packet_size()
    }

    /// Row 1 of a block.
    pub fn is_due(&self, size: usize) -> bool {
        size == self.block_size() || size == 1 && self.takes_stop_token()
    }
}

// What the commands are made of.
impl Card {
    pub fn capacity(&self) -> u32 {
        self.settings.block_count * BLOCK_BYTES
    }

    fn shown_lock(&self) -> u32 {
        if self.locked {
            CARD_IS_LOCKED
        } else {
            0
        }
    }

    /// Everything but the settings, the lock, the mode, the last published RCA and the protection marks.
    fn go_idle(&mut self) {
        self.state = State::Idle;
        self.rca = 0;
        self.block_len = BLOCK_BYTES;
        self.polls_left = self.settings.start_polls;
        self.status = 0;
        self.app_mark = false;
        self.erase_start = None;
        self.erase_end = None;
        self.transfer = Transfer::None;
        self.num_wr_blocks = 0;
    }

    fn check_range(&self, address: u32) -> Result<(), u32> {
        if address < self.capacity() {
            Ok(())
        } else {
            Err(OUT_OF_RANGE)
        }
    }

    fn check_protection(&self, address: u32) -> Result<(), u32> {
        if self.is_protected(address) {
            Err(WP_VIOLATION)
        } else {
            Ok(())
        }
    }

    fn check_read(&self, address: u32) -> Result<(), u32> {
        self.check_range(address)?;
        if address % BLOCK_BYTES + self.block_len > BLOCK_BYTES {
            return Err(ADDRESS_ERROR);
        }
        Ok(())
    }

    fn check_write(&self, address: u32) -> Result<(), u32> {
        if self.block_len != BLOCK_BYTES {
            return Err(BLOCK_LEN_ERROR);
        }
        self.check_range(address)?;
        if address % BLOCK_BYTES != 0 {
            return Err(ADDRESS_ERROR);
        }
        self.check_protection(address)
    }

    fn send_data(&mut self, transfer: Transfer) {
        self.transfer = transfer;
        self.state = State::Data;
    }

    fn receive_data(&mut self, transfer: Transfer) {
        self.transfer = transfer;
        self.state = State::Rcv;
    }

    fn leave_transfer(&mut self, state: State) {
        self.transfer = Transfer::None;
        self.state = state;
    }

    fn hold(&mut self, error: u32) {
        self.status |= error;
        if let Transfer::Read { held, .. } | Transfer::Write { held, .. } = &mut self.transfer {
            *held = true;
        }
    }

    fn is_protected(&self, address: u32) -> bool {
        self.settings.perm_write_protect
            || self.settings.tmp_write_protect
            || self.is_marked(address / GROUP_BYTES)
    }

    fn is_marked(&self, group: u32) -> bool {
        let (byte, bit) = mark_of(group);
        self.write_prot.get(byte).is_some_and(|marks| marks & bit != 0)
    }

    fn write_prot_bits(&self, address: u32) -> u32 {
        let first = address / GROUP_BYTES;
        (0..32).filter(|&i| self.is_marked(first + i)).fold(0, |bits, i| bits | 1 << i)
    }

    /// Says whether there were any.
    fn clear_erase_marks(&mut self) -> bool {
        let start = self.erase_start.take();
        let end = self.erase_end.take();
        start.is_some() || end.is_some()
    }
}

fn mark_of(group: u32) -> (usize, u8) {
    (group as usize / 8, 1 << (group % 8))
}

fn send(payload: &[u8], out: &mut [u8]) -> usize {
    let (body, rest) = out.split_at_mut(payload.len());
    body.copy_from_slice(payload);
    rest[..2].copy_from_slice(&crc16(payload).to_be_bytes());
    payload.len() + 2
}

pub fn crc7(bytes: &[u8]) -> u8 {
    bytes.iter().fold(0, |crc, byte| CRC7[usize::from(crc << 1 ^ byte)])
}

pub fn crc16(bytes: &[u8]) -> u16 {
    bytes.iter().fold(0, |crc, byte| crc << 8 ^ CRC16[usize::from((crc >> 8) as u8 ^ byte)])
}

/// x^7 + x^3 + 1: the check of each single byte.
const CRC7: [u8; 256] = {
    let mut table = [0; 256];
    let mut byte = 0;
    while byte < 256 {
        // The check sits in the upper seven bits while it is shifted.
        let mut crc = byte as u8;
        let mut bit = 0;
        while bit < 8 {
            crc = if crc & 0x80 != 0 { crc << 1 ^ 0x12 } else { crc << 1 };
            bit += 1;
        }
        table[byte] = crc >> 1;
        byte += 1;
    }
    table
};

/// x^16 + x^12 + x^5 + 1: the check of each single byte.
const CRC16: [u16; 256] = {
    let mut table = [0; 256];
    let mut byte = 0;
    while byte < 256 {
        let mut crc = (byte as u16) << 8;
        let mut bit = 0;
        while bit < 8 {
            crc = if crc & 0x8000 != 0 { crc << 1 ^ 0x1021 } else { crc << 1 };
            bit += 1;
        }
        table[byte] = crc;
        byte += 1;
    }
    table
};
