//! SD bus mode of the reference card: frame rules, transition table, the commands that are its own, responses.

use super::{
    crc7, Card, Command, State, Transfer, APP_CMD, CLEAR_BY_READ, COM_CRC_ERROR, ILLEGAL_COMMAND, OCR_READY,
    OCR_WINDOW, READY_FOR_DATA,
};

enum Response {
    Silence,
    R1,
    R2([u8; 16]),
    R3(u32),
    R6,
    R7(u32),
}

impl Command {
    /// Carries an RCA that must be the card's own. Command 7 does too, but means
    /// something for either, so it is two commands.
    fn is_addressed(self) -> bool {
        use Command::*;
        matches!(self, SendCsd | SendCid | SendStatus | GoInactiveState | AppCmd)
    }

    fn shows_app_cmd(self) -> bool {
        use Command::*;
        matches!(
            self,
            AppCmd
                | SdStatus
                | SendNumWrBlocks
                | SetWrBlkEraseCount
                | SdSendOpCond
                | SetClrCardDetect
                | SendScr
        )
    }

    /// The transition table, read from the left.
    fn runs_in(self, state: State) -> bool {
        use {Command::*, State::*};
        match self {
            GoIdleState => state != Ina,
            AllSendCid => state == Ready,
            SendRelativeAddr => matches!(state, Ident | Stby),
            SelectCard => matches!(state, Stby | Dis),
            DeselectCard => matches!(state, Stby | Tran | Data | Prg),
            SendIfCond | SdSendOpCond => state == Idle,
            SendCsd | SendCid => state == Stby,
            StopTransmission => matches!(state, Data | Rcv),
            SendStatus | GoInactiveState => matches!(state, Stby | Tran | Data | Rcv | Prg | Dis),
            AppCmd => matches!(state, Idle | Stby | Tran | Data | Rcv | Prg | Dis),
            ReadOcr | CrcOnOff => false,
            _ => state == Tran,
        }
    }
}

impl Card {
    /// Command 0 with chip select low chooses SPI, which answers it.
    pub(super) fn receive_sd(
        &mut self,
        frame: &[u8; 6],
        low: bool,
        memory: &mut [u8],
        out: &mut [u8],
    ) -> usize {
        if self.state == State::Ina || frame[0] >> 6 != 0b01 {
            return 0;
        }
        if frame[5] != crc7(&frame[..5]) << 1 | 1 {
            self.status |= COM_CRC_ERROR;
            return 0;
        }
        let index = frame[0] & 0x3F;
        let argument = u32::from_be_bytes([frame[1], frame[2], frame[3], frame[4]]);
        let Some(command) = self.command_sd(index, argument) else {
            self.status |= ILLEGAL_COMMAND;
            self.app_mark = false;
            return 0;
        };
        if command.is_addressed() && !self.is_own(argument) {
            self.app_mark = false;
            return 0;
        }
        if command == Command::GoIdleState && low {
            return self.run_spi(command, argument, memory, out);
        }
        self.run_sd(command, index, argument, memory, out)
    }

    /// None where it is not allowed.
    fn command_sd(&self, index: u8, argument: u32) -> Option<Command> {
        let command = match Command::of(index, self.app_mark)? {
            Command::SelectCard if !self.is_own(argument) => Command::DeselectCard,
            command => command,
        };
        (command.runs_in(self.state) && (!self.locked || command.runs_locked())).then_some(command)
    }

    fn is_own(&self, argument: u32) -> bool {
        argument >> 16 == u32::from(self.rca)
    }

    fn run_sd(
        &mut self,
        command: Command,
        index: u8,
        argument: u32,
        memory: &mut [u8],
        out: &mut [u8],
    ) -> usize {
        let at_reception = self.state;
        self.clear_erase_marks_before(command);
        let response = self.execute_sd(command, argument, memory).unwrap_or_else(|error| {
            self.status |= error;
            Response::R1
        });
        let app_cmd = if command.shows_app_cmd() { APP_CMD } else { 0 };
        let status = self.status | shown_state(at_reception) | self.shown_lock() | app_cmd;
        self.status &= !(COM_CRC_ERROR | ILLEGAL_COMMAND);
        if let Response::R1 = response {
            self.status &= !CLEAR_BY_READ;
        }
        self.app_mark = command == Command::AppCmd;
        match response {
            Response::Silence => 0,
            Response::R1 => respond(index, status, out),
            Response::R2(register) => {
                out[0] = 0x3F;
                out[1..17].copy_from_slice(&register);
                17
            }
            Response::R3(ocr) => {
                out[0] = 0x3F;
                out[1..5].copy_from_slice(&ocr.to_be_bytes());
                out[5] = 0xFF;
                6
            }
            Response::R6 => respond(index, u32::from(self.rca) << 16 | short_status(status), out),
            Response::R7(echo) => respond(index, echo, out),
        }
    }

    fn execute_sd(&mut self, command: Command, argument: u32, memory: &mut [u8]) -> Result<Response, u32> {
        use Command::*;
        Ok(match command {
            GoIdleState => {
                self.go_idle();
                Response::Silence
            }
            AllSendCid => {
                self.state = State::Ident;
                Response::R2(self.settings.cid_register())
            }
            SendRelativeAddr => {
                self.last_rca = self.last_rca.wrapping_add(1).max(1);
                self.rca = self.last_rca;
                self.state = State::Stby;
                Response::R6
            }
            SelectCard => {
                self.state = if self.state == State::Stby { State::Tran } else { State::Prg };
                Response::R1
            }
            DeselectCard => {
                self.leave_transfer(if self.state == State::Prg { State::Dis } else { State::Stby });
                Response::Silence
            }
            SendIfCond if argument >> 8 & 0xF == 1 => Response::R7(argument & 0xFFF),
            SendIfCond => Response::Silence,
            SendCsd => Response::R2(self.settings.csd_register()),
            SendCid => Response::R2(self.settings.cid_register()),
            GoInactiveState => {
                self.leave_transfer(State::Ina);
                Response::Silence
            }
            SdSendOpCond => self.send_op_cond_sd(argument),
            shared => {
                self.execute(shared, argument, memory)?;
                Response::R1
            }
        })
    }

    fn send_op_cond_sd(&mut self, argument: u32) -> Response {
        let window = argument & 0x00FF_FFFF;
        if window == 0 {
            let ready = if self.polls_left == 0 { OCR_READY } else { 0 };
            return Response::R3(OCR_WINDOW | ready);
        }
        if window & OCR_WINDOW == 0 {
            self.state = State::Ina;
            return Response::Silence;
        }
        if self.polls_left > 0 {
            self.polls_left -= 1;
            return Response::R3(OCR_WINDOW);
        }
        self.state = State::Ready;
        Response::R3(OCR_WINDOW | OCR_READY)
    }

    /// The unsound list's conditions on bus states, on the RCA and on the application mark.
    pub(super) fn bus_state_is_sound(&self) -> bool {
        let has_transfer = match self.state {
            State::Data => self.transfer.is_read(),
            State::Rcv => self.transfer.is_write(),
            _ => self.transfer == Transfer::None,
        };
        let has_rca = match self.state {
            State::Idle | State::Ready | State::Ident => self.rca == 0,
            State::Ina => true,
            _ => self.rca != 0,
        };
        let may_have_mark = !matches!(self.state, State::Ready | State::Ident | State::Ina);
        has_transfer && has_rca && (may_have_mark || !self.app_mark)
    }
}

fn shown_state(state: State) -> u32 {
    let busy = matches!(state, State::Prg | State::Dis);
    (state as u32) << 9 | if busy { 0 } else { READY_FOR_DATA }
}

/// Status bits 23, 22, 19 and 12..0, as R6 has them.
fn short_status(status: u32) -> u32 {
    status >> 8 & 0xC000 | status >> 6 & 0x2000 | status & 0x1FFF
}

fn respond(index: u8, content: u32, out: &mut [u8]) -> usize {
    out[0] = index;
    out[1..5].copy_from_slice(&content.to_be_bytes());
    out[5] = crc7(&out[..5]) << 1 | 1;
    6
}
