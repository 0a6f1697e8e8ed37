//! The bus's side: events, the error counters and the way of a received frame.

use crate::device::*;
use crate::fate::Fate;
use crate::frame::{data_bytes, Frame, Received};
use crate::host::Refusal;

/// A frame as it is told, possible or not.
pub struct ToldFrame {
    pub identifier: u32,
    pub extended: bool,
    pub remote: bool,
    pub length_code: u32,
    pub data: Vec<u8>,
}

/// A kind of error is given as its bit in ERR.
pub enum Event {
    GoodFrame { told: ToldFrame, acknowledged: bool },
    ReceiveError(u8),
    TransmitError { kind: u8, counted: bool },
    DominantAfterFlag,
    Begun,
    Completed,
    ArbitrationLost,
    ElevenRecessive,
    Quiet,
    Activity,
    Ticks(u16),
    TxenPin(bool),
    MrPin,
}

const IMPOSSIBLE: Refusal = 8;
const NO_NUMBER_LEFT: Refusal = 12;

/// Bit 0 of byte 4 has no name in Table 4b.
const COUNTED: [u8; 6] = [0xFF, 0xFF, 0xFF, 0xFE, 0xFF, 0xFF];

/// 1000 to 1111 for the lowest filter of the set, 0000 where the set is empty.
fn filhit_of(hits: u8) -> u8 {
    match hits {
        0 => 0,
        _ => 8 | hits.trailing_zeros() as u8,
    }
}

impl ToldFrame {
    pub fn possible(self) -> Result<Frame, Refusal> {
        let bits = if self.extended { 29 } else { 11 };
        if self.identifier >> bits != 0 || self.length_code > 15 {
            return Err(IMPOSSIBLE);
        }
        let length_code = self.length_code as u8;
        if self.data.len() != data_bytes(length_code, self.remote) {
            return Err(IMPOSSIBLE);
        }
        Ok(Frame {
            identifier: self.identifier,
            extended: self.extended,
            remote: self.remote,
            length_code,
            data: self.data,
        })
    }
}

impl Device {
    pub fn event(&mut self, event: Event) -> Result<Option<Fate>, Refusal> {
        match event {
            Event::GoodFrame { told, acknowledged } => {
                let frame = told.possible()?;
                return self.good_frame(frame, acknowledged).map(Some);
            }
            Event::ReceiveError(kind) => {
                self.errors_possible()?;
                self.note_error(kind);
                self.raise_rec(1);
            }
            Event::TransmitError { kind, counted } => self.transmit_error(kind, counted)?,
            Event::DominantAfterFlag => {
                self.errors_possible()?;
                self.raise_rec(8);
            }
            Event::Begun => self.begin()?,
            Event::Completed => return self.complete(),
            Event::ArbitrationLost => {
                self.running.as_ref().ok_or(IMPOSSIBLE)?;
                self.stop_running();
            }
            Event::ElevenRecessive => self.eleven_recessive(),
            Event::Quiet => {
                let waits = Mode::named_by(self.ctrl0) == Mode::Sleep;
                let idle = self.running.is_none() && self.transmit_fifo.is_empty();
                if waits && self.acting != Mode::Sleep && idle {
                    self.change_mode(Mode::Sleep);
                }
            }
            Event::Activity => self.wake_up(),
            Event::Ticks(count) => self.time_tag = self.time_tag.wrapping_add(count),
            Event::TxenPin(level) => self.txen_pin = level,
            Event::MrPin => self.master_reset(),
        }
        Ok(None)
    }

    pub fn good_frame(&mut self, frame: Frame, acknowledged: bool) -> Result<Fate, Refusal> {
        match self.acting {
            Mode::Sleep => {
                // The frame that wakes is itself lost.
                self.wake_up();
                return Ok(Fate::A1);
            }
            Mode::Initialization | Mode::Loopback => return Ok(Fate::A1),
            _ => {}
        }
        if self.bus_off {
            return Ok(Fate::A2);
        }
        if self.acting == Mode::Monitor && !acknowledged {
            return Ok(Fate::A3);
        }
        self.number_left()?;
        if self.acting == Mode::Normal {
            self.rec = match self.rec {
                0 => 0,
                1..=127 => self.rec - 1,
                _ => 119,
            };
        }
        Ok(self.receive(frame))
    }

    /// To be asked before anything changes.
    fn number_left(&self) -> Result<(), Refusal> {
        match self.numbers_given {
            u64::MAX => Err(NO_NUMBER_LEFT),
            _ => Ok(()),
        }
    }

    fn wake_up(&mut self) {
        if self.acting == Mode::Sleep && self.ctrl0 & CTRL0_WAKEUP != 0 {
            self.ctrl0 = self.ctrl0 & 0x1F | 0x40;
            self.intf |= INTF_WAKEUP;
            self.change_mode(Mode::Monitor);
        }
    }

    /// From the temporary buffer through the filters into the FIFO. What gets as far as here is numbered, wherever
    /// it ends.
    fn receive(&mut self, frame: Frame) -> Fate {
        self.numbers_given += 1;
        let filtering = self.ctrl1 & CTRL1_FILTON != 0;
        let hits = if filtering { self.hits(&frame) } else { 0 };
        let filhit = filhit_of(hits);
        let received = Received {
            frame,
            time_tag: self.time_tag,
            filhit,
            number: self.numbers_given,
        };
        self.temporary = Some(received.clone());
        self.intf |= INTF_RXTMP;
        match filhit {
            0b1000 => self.intf |= INTF_F0MESS,
            0b1001 => self.intf |= INTF_F1MESS,
            0b0000 if filtering => return Fate::A4,
            _ => {}
        }
        self.intf |= INTF_RXFIFO;
        self.queue(received)
    }

    /// Where an eighth message waits already, it gives up its place; the seven before it stay.
    fn queue(&mut self, received: Received) -> Fate {
        let eighth = self.receive_fifo.get(ROOM - 1);
        let lost = eighth.map(|message| message.frame.name());
        self.receive_fifo.truncate(ROOM - 1);
        self.receive_fifo.push_back(received);
        lost.map_or(Fate::Queued, Fate::QueuedOver)
    }

    /// The set of filters that match, filter n as bit n, whether filtering is on or not.
    pub fn hits(&self, frame: &Frame) -> u8 {
        let seen = frame.filter_bytes();
        let matches = |n: usize| {
            let (filter, mask) = (self.filters[n], self.masks[n]);
            (0..6).all(|i| (seen[i] ^ filter[i]) & mask[i] & COUNTED[i] == 0)
        };
        (0..8).fold(0, |set, n| set | u8::from(matches(n)) << n)
    }

    fn errors_possible(&self) -> Result<(), Refusal> {
        match self.acting {
            Mode::Initialization | Mode::Sleep => Err(IMPOSSIBLE),
            _ if self.bus_off => Err(IMPOSSIBLE),
            _ => Ok(()),
        }
    }

    fn note_error(&mut self, kind: u8) {
        self.err |= kind;
        self.intf |= INTF_BUSERR;
    }

    fn raise_rec(&mut self, step: u8) {
        if self.acting != Mode::Monitor {
            self.rec = self.rec.saturating_add(step);
        }
    }

    /// One runs in normal and loopback mode only, and not in bus off: nothing else is to check.
    fn transmit_error(&mut self, kind: u8, counted: bool) -> Result<(), Refusal> {
        self.running.as_ref().ok_or(IMPOSSIBLE)?;
        self.note_error(kind);
        self.stop_running();
        if counted {
            let raised = self.tec.checked_add(8);
            self.bus_off = raised.is_none();
            self.tec = raised.unwrap_or(255);
        }
        Ok(())
    }

    fn begin(&mut self) -> Result<(), Refusal> {
        let can_send = matches!(self.acting, Mode::Normal | Mode::Loopback) && !self.bus_off;
        if self.running.is_some() || !can_send || !self.enabled() {
            return Err(IMPOSSIBLE);
        }
        let message = self.transmit_fifo.pop_front().ok_or(IMPOSSIBLE)?;
        self.running = Some(Running {
            message,
            has_place: true,
        });
        if self.ctrl1 & CTRL1_OSM != 0 {
            self.ctrl1 &= !CTRL1_TX1M;
        }
        Ok(())
    }

    fn complete(&mut self) -> Result<Option<Fate>, Refusal> {
        let comes_back = self.acting == Mode::Loopback;
        // With nothing begun it is 8.
        if comes_back && self.running.is_some() {
            self.number_left()?;
        }
        let message = self.running.take().ok_or(IMPOSSIBLE)?.message;
        if self.history.len() < ROOM {
            self.history.push_back((message.tag, self.time_tag));
        }
        self.mtag = message.tag & 0b11;
        self.tec = self.tec.saturating_sub(1);
        self.ctrl1 &= !CTRL1_TX1M;
        self.intf |= INTF_TXCPLT;
        Ok(comes_back.then(|| self.receive(message.frame)))
    }

    fn eleven_recessive(&mut self) {
        if !self.bus_off {
            return;
        }
        self.groups = RECOVERY_GROUPS.min(self.groups + 1);
        if self.groups == RECOVERY_GROUPS && self.ctrl0 & CTRL0_BOR != 0 {
            self.bus_off = false;
            self.groups = 0;
            self.rec = 0;
            self.tec = 0;
        }
    }
}
