//! The host's side: one SPI transfer.

use crate::commands::{Job, Readable, Stretches, Writable, TABLE_1};
use crate::device::*;
use crate::frame::{Message, Received};

/// The number that document 01, or a request of 02, has for a refusal.
pub type Refusal = u8;

const NOT_A_COMMAND: Refusal = 2;
const WRONG_LENGTH: Refusal = 3;
const REPLY_BUFFER_SHORT: Refusal = 4;
const NOT_IN_INITIALIZATION: Refusal = 5;
const TRANSMIT_FIFO_FULL: Refusal = 6;
const NOTHING_TO_READ: Refusal = 7;

fn cut_out(message: Option<&Received>, stretches: Stretches) -> Vec<u8> {
    let bytes = message.map_or([0; 16], Received::table_5);
    let part = |&(first, last): &(usize, usize)| bytes[first - 1..last].to_vec();
    stretches.iter().flat_map(part).collect()
}

impl Device {
    /// `reply_room` is the length of the lent reply buffer. The checks stand in rising order of
    /// their numbers, and nothing changes before the last of them.
    pub fn transfer(&mut self, bytes: &[u8], reply_room: usize) -> Result<Vec<u8>, Refusal> {
        let code = *bytes.first().ok_or(WRONG_LENGTH)?;
        let row = TABLE_1.iter().find(|&&(command, ..)| command == code);
        let &(_, length, reply_length, job) = row.ok_or(NOT_A_COMMAND)?;
        let field = &bytes[1..];
        if length.map_or(false, |length| length != field.len()) {
            return Err(WRONG_LENGTH);
        }
        if reply_room < reply_length {
            return Err(REPLY_BUFFER_SHORT);
        }
        self.execute(job, field)
    }

    fn execute(&mut self, job: Job, field: &[u8]) -> Result<Vec<u8>, Refusal> {
        let mut reply = Vec::new();
        match job {
            Job::ReadTemporary(part) => reply = cut_out(self.temporary.as_ref(), part),
            Job::ReadNextMessage(part) => {
                let message = self.receive_fifo.pop_front().ok_or(NOTHING_TO_READ)?;
                reply = cut_out(Some(&message), part);
            }
            Job::ReadFilter(n) => reply.extend_from_slice(&self.filters[n]),
            Job::ReadMask(n) => reply.extend_from_slice(&self.masks[n]),
            Job::Read(register) => reply.push(self.read(register)),
            Job::ReadHistory => {
                let (tag, time) = self.history.pop_front().ok_or(NOTHING_TO_READ)?;
                reply.push(tag);
                reply.extend_from_slice(&time.to_be_bytes());
            }
            Job::ReadTimeTag => reply.extend_from_slice(&self.time_tag.to_be_bytes()),
            Job::AbortTransmission => {
                self.ctrl1 &= !(CTRL1_TXEN | CTRL1_TX1M);
                self.stop_running();
            }
            Job::ResetTransmitFifo => {
                self.ctrl1 &= !(CTRL1_TXEN | CTRL1_TX1M);
                self.transmit_fifo.clear();
                if let Some(run) = &mut self.running {
                    run.has_place = false;
                }
            }
            Job::MasterReset => self.master_reset(),
            Job::ResetTimeTag => self.time_tag = 0,
            Job::ResetReceiveFifo => self.receive_fifo.clear(),
            Job::WriteMessage => {
                // A wrong length shows only here; 4 and 5 can't apply to 0x12, so the order holds.
                let message = Message::from_table_2(field).ok_or(WRONG_LENGTH)?;
                if self.messages_to_send() == ROOM {
                    return Err(TRANSMIT_FIFO_FULL);
                }
                self.transmit_fifo.push_back(message);
            }
            Job::Write(register) => self.write(register, field[0])?,
            Job::WriteFilter(n) => {
                self.needs_initialization()?;
                self.filters[n].copy_from_slice(field);
            }
            Job::WriteMask(n) => {
                self.needs_initialization()?;
                self.masks[n].copy_from_slice(field);
            }
        }
        Ok(reply)
    }

    fn needs_initialization(&self) -> Result<(), Refusal> {
        if self.acting == Mode::Initialization {
            Ok(())
        } else {
            Err(NOT_IN_INITIALIZATION)
        }
    }

    fn read(&mut self, register: Readable) -> u8 {
        match register {
            Readable::Ctrl0 => self.ctrl0,
            Readable::Ctrl1 => self.ctrl1,
            Readable::Btr0 => self.btr0,
            Readable::Btr1 => self.btr1,
            Readable::Messtat => self.messtat(),
            Readable::Err => {
                let shown = self.err_register();
                self.err = 0;
                shown
            }
            Readable::Intf => std::mem::take(&mut self.intf),
            Readable::Statf => self.statf(),
            Readable::Inte => self.inte,
            Readable::Statfe => self.statfe,
            Readable::Gpine => self.gpine,
            Readable::Rec => self.rec,
            Readable::Tec => self.tec,
            Readable::BusOffRecessiveCount => self.groups,
        }
    }

    fn write(&mut self, register: Writable, value: u8) -> Result<(), Refusal> {
        match register {
            Writable::Ctrl0 => self.write_ctrl0(value),
            Writable::Ctrl1 => self.ctrl1 = value,
            Writable::Btr0 => {
                self.needs_initialization()?;
                self.btr0 = value;
            }
            Writable::Btr1 => {
                self.needs_initialization()?;
                self.btr1 = value;
            }
            Writable::Inte => self.inte = value,
            Writable::Statfe => self.statfe = value,
            Writable::Gpine => self.gpine = value,
            Writable::Rec => self.rec = value,
            Writable::Tec => {
                // TEC stands still in bus off.
                if !self.bus_off {
                    self.tec = value;
                }
            }
        }
        Ok(())
    }

    fn write_ctrl0(&mut self, value: u8) {
        if value & CTRL0_RESET != 0 {
            self.master_reset();
            // The bit reads as one until the host clears it.
            self.ctrl0 |= CTRL0_RESET;
            return;
        }
        self.ctrl0 = value;
        let named = Mode::named_by(value);
        // Sleep waits for a quiet bus; naming the acting mode withdraws a waiting sleep, no more.
        if named != Mode::Sleep && named != self.acting {
            self.stop_running();
            self.change_mode(named);
        }
    }
}
