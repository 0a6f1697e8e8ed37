//! What the device remembers, and what it shows that is drawn from elsewhere at each look.

use crate::frame::{Message, Received};
use std::collections::VecDeque;

/// Messages in a FIFO, and entries in the history.
pub const ROOM: usize = 8;
/// Groups of eleven recessive bits that end bus off.
pub const RECOVERY_GROUPS: u8 = 128;

pub const CTRL0_WAKEUP: u8 = 0x10;
pub const CTRL0_RESET: u8 = 0x08;
pub const CTRL0_BOR: u8 = 0x04;
pub const CTRL1_TXEN: u8 = 0x80;
pub const CTRL1_TX1M: u8 = 0x40;
pub const CTRL1_OSM: u8 = 0x20;
pub const CTRL1_FILTON: u8 = 0x10;
pub const INTF_RXTMP: u8 = 0x80;
pub const INTF_RXFIFO: u8 = 0x40;
pub const INTF_TXCPLT: u8 = 0x20;
pub const INTF_BUSERR: u8 = 0x10;
pub const INTF_MCHG: u8 = 0x08;
pub const INTF_WAKEUP: u8 = 0x04;
pub const INTF_F1MESS: u8 = 0x02;
pub const INTF_F0MESS: u8 = 0x01;

#[derive(Clone, Copy, PartialEq)]
pub enum Mode {
    Normal,
    Loopback,
    Monitor,
    Sleep,
    Initialization,
}

impl Mode {
    pub fn named_by(ctrl0: u8) -> Mode {
        match ctrl0 >> 5 {
            0 => Mode::Normal,
            1 => Mode::Loopback,
            2 => Mode::Monitor,
            3 => Mode::Sleep,
            _ => Mode::Initialization,
        }
    }
}

/// The message in the transmit buffer. It still has its place at the head of the FIFO, unless
/// 0x54 took that away.
pub struct Running {
    pub message: Message,
    pub has_place: bool,
}

pub struct Device {
    /// The mode that acts; MODE in CTRL0 differs from it while a sleep waits.
    pub acting: Mode,
    pub ctrl0: u8,
    pub ctrl1: u8,
    pub btr0: u8,
    pub btr1: u8,
    pub inte: u8,
    pub statfe: u8,
    pub gpine: u8,
    pub intf: u8,
    /// ERR's bits 4 to 0; the others are drawn from the counters.
    pub err: u8,
    pub rec: u8,
    pub tec: u8,
    pub bus_off: bool,
    pub groups: u8,
    pub filters: [[u8; 6]; 8],
    pub masks: [[u8; 6]; 8],
    pub receive_fifo: VecDeque<Received>,
    pub temporary: Option<Received>,
    /// Arrival numbers since power-up; the latest is the same as their count.
    pub numbers_given: u64,
    /// Without the running message: see `messages_to_send`.
    pub transmit_fifo: VecDeque<Message>,
    pub running: Option<Running>,
    pub history: VecDeque<(u8, u16)>,
    pub time_tag: u16,
    pub mtag: u8,
    pub txen_pin: bool,
}

impl Device {
    pub fn fresh() -> Device {
        Device {
            acting: Mode::Initialization,
            ctrl0: 0x80,
            ctrl1: 0,
            btr0: 0,
            btr1: 0,
            inte: 0,
            statfe: 0,
            gpine: 0,
            intf: 0,
            err: 0,
            rec: 0,
            tec: 0,
            bus_off: false,
            groups: 0,
            filters: [[0; 6]; 8],
            masks: [[0; 6]; 8],
            receive_fifo: VecDeque::new(),
            temporary: None,
            numbers_given: 0,
            transmit_fifo: VecDeque::new(),
            running: None,
            history: VecDeque::new(),
            time_tag: 0,
            mtag: 0,
            txen_pin: false,
        }
    }

    pub fn master_reset(&mut self) {
        let before = std::mem::replace(self, Device::fresh());
        self.err = before.err;
        self.rec = before.rec;
        self.tec = before.tec;
        self.bus_off = before.bus_off;
        self.groups = before.groups;
        self.filters = before.filters;
        self.masks = before.masks;
        // Two arrivals would else have the same number.
        self.numbers_given = before.numbers_given;
        // A wire from outside: no reset inside moves it.
        self.txen_pin = before.txen_pin;
    }

    pub fn change_mode(&mut self, mode: Mode) {
        self.acting = mode;
        self.intf |= INTF_MCHG;
    }

    pub fn enabled(&self) -> bool {
        self.txen_pin || self.ctrl1 & (CTRL1_TXEN | CTRL1_TX1M) != 0
    }

    /// A running message counts as long as it has its place.
    pub fn messages_to_send(&self) -> usize {
        let running = self.running.as_ref().map_or(false, |run| run.has_place);
        self.transmit_fifo.len() + usize::from(running)
    }

    /// Ends a running transmission without success: the message goes back to its place, if any.
    pub fn stop_running(&mut self) {
        if let Some(run) = self.running.take() {
            if run.has_place {
                self.transmit_fifo.push_front(run.message);
            }
        }
    }

    pub fn messtat(&self) -> u8 {
        let tstat = if self.running.is_some() {
            0b11
        } else if !self.enabled() {
            0b00
        } else if self.transmit_fifo.is_empty() {
            0b01
        } else {
            0b10
        };
        let filhit = self.temporary.as_ref().map_or(0, |latest| latest.filhit);
        filhit << 4 | self.mtag << 2 | tstat
    }

    /// ERR's upper bits follow the counters; TEC says nothing in bus off.
    pub fn err_register(&self) -> u8 {
        let txerrp = self.tec >= 128 && !self.bus_off;
        let rxerrp = self.rec >= 128;
        u8::from(self.bus_off) << 7 | u8::from(txerrp) << 6 | u8::from(rxerrp) << 5 | self.err
    }

    pub fn statf(&self) -> u8 {
        let tec = if self.bus_off { 0 } else { self.tec };
        let warns = |counter: u8| (96..128).contains(&counter);
        let flags = [
            self.messages_to_send() == 0,
            self.messages_to_send() == ROOM,
            self.history.len() == ROOM,
            warns(self.rec) || warns(tec),
            self.rec >= 128 || tec >= 128,
            self.bus_off,
            self.receive_fifo.is_empty(),
            self.receive_fifo.len() == ROOM,
        ];
        flags.iter().fold(0, |byte, &f| byte << 1 | u8::from(f))
    }

    /// The pins INT, STAT, GP1 and GP2.
    pub fn pins(&self) -> [bool; 4] {
        // GPINE's pages number INTF's bits 0 to 7 and STATF's 8 to 15, both from the lowest.
        let flags = u16::from_be_bytes([self.statf(), self.intf]);
        let shows = |pick: u8| flags >> pick & 1 == 1;
        [
            self.intf & self.inte != 0,
            self.statf() & self.statfe != 0,
            shows(self.gpine & 0x0F),
            shows(self.gpine >> 4),
        ]
    }
}
