//! SPI mode of the reference card (02, order 5): frame rules, which commands are allowed, responses, tokens.

use super::{
    crc7, Card, Command, CrcStatus, State, Transfer, ADDRESS_ERROR, BLOCK_LEN_ERROR, CARD_IS_LOCKED,
    COM_CRC_ERROR, ERASE_PARAM, ERASE_RESET, ERASE_SEQ_ERROR, ILLEGAL_COMMAND, LOCK_UNLOCK_FAILED, OCR_READY,
    OCR_WINDOW, OUT_OF_RANGE, PACKET, WP_ERASE_SKIP, WP_VIOLATION,
};

/// A packet behind its token.
pub const SPI_BLOCK: usize = 1 + PACKET;

const START_BLOCK: u8 = 0xFE;
/// Each block of command 25.
const START_BLOCK_MULTIPLE: u8 = 0xFC;
const STOP_TRAN: u8 = 0xFD;
const DATA_ACCEPTED: u8 = 0x05;
const DATA_REJECTED: u8 = 0x0B;

const IN_IDLE_STATE: u8 = 1;

/// The bits of R1 and of R2's second byte, and the status bits that each shows.
const R1: [(u8, u32); 6] = [
    (6, OUT_OF_RANGE | BLOCK_LEN_ERROR),
    (5, ADDRESS_ERROR),
    (4, ERASE_SEQ_ERROR),
    (3, COM_CRC_ERROR),
    (2, ILLEGAL_COMMAND),
    (1, ERASE_RESET),
];
const R2: [(u8, u32); 5] = [
    (7, OUT_OF_RANGE),
    (6, ERASE_PARAM),
    (5, WP_VIOLATION),
    (1, WP_ERASE_SKIP | LOCK_UNLOCK_FAILED),
    (0, CARD_IS_LOCKED),
];

/// Chosen by command 0; only power-up leads back.
#[derive(Clone, Copy, Debug, PartialEq, Eq)]
pub enum Mode {
    Sd,
    Spi { crc_on: bool },
}

/// What SPI has instead of bus states.
#[derive(Clone, Copy, Debug, PartialEq, Eq)]
pub enum Phase {
    Idle,
    Ready,
    /// A transfer is open, held or not.
    Open,
    Busy,
}

enum Response {
    R1,
    R2,
    R3(u32),
    R7(u32),
}

impl Mode {
    pub fn is_spi(self) -> bool {
        self != Mode::Sd
    }

    /// What comes before a packet from the card.
    pub(super) fn lead(self) -> &'static [u8] {
        if self.is_spi() {
            &[START_BLOCK]
        } else {
            &[]
        }
    }
}

impl CrcStatus {
    /// The data response; silence has none.
    pub fn token(self) -> Option<u8> {
        match self {
            CrcStatus::Silence => None,
            CrcStatus::Accepted => Some(DATA_ACCEPTED),
            CrcStatus::Rejected => Some(DATA_REJECTED),
        }
    }
}

impl Command {
    fn runs_while(self, phase: Phase) -> bool {
        use Command::*;
        match phase {
            Phase::Idle => {
                matches!(self, GoIdleState | SendIfCond | AppCmd | SdSendOpCond | ReadOcr | CrcOnOff)
            }
            Phase::Open => matches!(self, GoIdleState | StopTransmission | SendStatus),
            Phase::Busy => matches!(self, GoIdleState | SendStatus),
            Phase::Ready => !matches!(
                self,
                AllSendCid
                    | SendRelativeAddr
                    | SelectCard
                    | DeselectCard
                    | StopTransmission
                    | GoInactiveState
            ),
        }
    }
}

impl Response {
    /// Bits 23 and 22 aside, which any command that runs clears.
    fn carried(&self) -> u32 {
        let carried = |bits: &[(u8, u32)]| bits.iter().fold(0, |all, (_, status)| all | status);
        match self {
            Response::R2 => carried(&R1) | carried(&R2),
            Response::R1 | Response::R3(_) | Response::R7(_) => carried(&R1),
        }
    }
}

impl Card {
    pub fn phase(&self) -> Phase {
        match (self.transfer, self.state) {
            (Transfer::None, State::Idle) => Phase::Idle,
            (Transfer::None, State::Prg | State::Dis) => Phase::Busy,
            (Transfer::None, _) => Phase::Ready,
            _ => Phase::Open,
        }
    }

    /// The end bit is no check: it is always judged. So is the check of command 8.
    pub(super) fn receive_spi(
        &mut self,
        frame: &[u8; 6],
        crc_on: bool,
        memory: &mut [u8],
        out: &mut [u8],
    ) -> usize {
        if frame[0] >> 6 != 0b01 {
            return 0;
        }
        let index = frame[0] & 0x3F;
        let is_judged = crc_on || index == 8;
        if frame[5] & 1 == 0 || is_judged && frame[5] >> 1 != crc7(&frame[..5]) {
            return self.respond(Response::R1, COM_CRC_ERROR, out);
        }
        let Some(command) = self.command_spi(index) else {
            self.app_mark = false;
            return self.respond(Response::R1, ILLEGAL_COMMAND, out);
        };
        let argument = u32::from_be_bytes([frame[1], frame[2], frame[3], frame[4]]);
        self.run_spi(command, argument, memory, out)
    }

    /// None where it is not allowed.
    fn command_spi(&self, index: u8) -> Option<Command> {
        let command = Command::of(index, self.app_mark)?;
        (command.runs_while(self.phase()) && (!self.locked || command.runs_locked())).then_some(command)
    }

    /// Also the 0 that chooses SPI. Of a 0 it is kept what was held before it, so that its R1 shows it.
    pub(super) fn run_spi(
        &mut self,
        command: Command,
        argument: u32,
        memory: &mut [u8],
        out: &mut [u8],
    ) -> usize {
        self.clear_erase_marks_before(command);
        let held = self.status;
        let response = self.execute_spi(command, argument, memory).unwrap_or_else(|error| {
            self.status |= error;
            Response::R1
        });
        let shown = held | self.status;
        self.status &= !(COM_CRC_ERROR | ILLEGAL_COMMAND | response.carried());
        self.app_mark = command == Command::AppCmd;
        self.respond(response, shown, out)
    }

    fn execute_spi(&mut self, command: Command, argument: u32, memory: &mut [u8]) -> Result<Response, u32> {
        use Command::*;
        match command {
            GoIdleState => {
                self.go_idle();
                self.mode = Mode::Spi { crc_on: false };
            }
            SendIfCond => return Ok(Response::R7(echo(argument))),
            ReadOcr => return Ok(Response::R3(self.ocr())),
            CrcOnOff => self.mode = Mode::Spi { crc_on: argument & 1 == 1 },
            SendCsd => self.send_data(Transfer::Csd),
            SendCid => self.send_data(Transfer::Cid),
            SdSendOpCond => self.send_op_cond_spi(),
            shared => self.execute(shared, argument, memory)?,
        }
        Ok(if matches!(command, SendStatus | SdStatus) { Response::R2 } else { Response::R1 })
    }

    /// No window is looked at.
    fn send_op_cond_spi(&mut self) {
        if self.phase() != Phase::Idle {
            return;
        }
        match self.polls_left {
            0 => self.state = State::Tran,
            _ => self.polls_left -= 1,
        }
    }

    fn ocr(&self) -> u32 {
        match self.phase() {
            Phase::Idle => OCR_WINDOW,
            _ => OCR_WINDOW | OCR_READY,
        }
    }

    fn respond(&self, response: Response, shown: u32, out: &mut [u8]) -> usize {
        let is_idle = self.phase() == Phase::Idle;
        out[0] = byte(&R1, shown) | if is_idle { IN_IDLE_STATE } else { 0 };
        match response {
            Response::R1 => 1,
            Response::R2 => {
                out[1] = byte(&R2, shown | self.shown_lock());
                2
            }
            Response::R3(content) | Response::R7(content) => {
                out[1..5].copy_from_slice(&content.to_be_bytes());
                5
            }
        }
    }

    /// A wrong token, or a lone byte that does not stop the transfer, is as if nothing had come.
    pub(super) fn block_in_spi(&mut self, block: &[u8], crc_on: bool, memory: &mut [u8]) -> CrcStatus {
        match block {
            [STOP_TRAN] => self.stop_transmission(),
            [_] => {}
            [token, packet @ ..] if *token == self.start_token() => {
                return self.packet_in(packet, crc_on, memory);
            }
            _ => {}
        }
        CrcStatus::Silence
    }

    /// Of a block to the card.
    pub fn start_token(&self) -> u8 {
        match self.transfer {
            Transfer::Write { multiple: true, .. } => START_BLOCK_MULTIPLE,
            _ => START_BLOCK,
        }
    }

    pub fn takes_stop_token(&self) -> bool {
        self.mode.is_spi() && matches!(self.transfer, Transfer::Write { multiple: true, .. })
    }
}

fn byte(bits: &[(u8, u32)], shown: u32) -> u8 {
    bits.iter().filter(|(_, status)| shown & status != 0).fold(0, |byte, (bit, _)| byte | 1 << bit)
}

/// Voltage and pattern of R7; the voltage is 0 where it is not the card's.
fn echo(argument: u32) -> u32 {
    let voltage = if argument >> 8 & 0xF == 1 { 0x100 } else { 0 };
    voltage | argument & 0xFF
}
