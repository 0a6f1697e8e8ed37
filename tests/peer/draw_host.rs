//! Scenes of the host: modes, sleep, pins, time, resets, and transfers that are refused.

use crate::commands::{Job, TABLE_1};
use crate::device::Mode;
use crate::draw::Drawer;

impl Drawer {
    pub fn change_mode(&mut self) {
        let mode = self
            .random
            .pick(&[0x00, 0x00, 0x20, 0x20, 0x40, 0x60, 0x80, 0xC0]);
        self.ctrl0(mode);
        let look = self.random.pick(&[0xD2, 0xDE, 0xDA, 0xD4]);
        self.spi(&[look]);
        if self.random.chance(20) {
            self.locked_write();
        }
    }

    /// Something of most kinds that a change of mode has to leave as it is.
    pub fn something_to_lose(&mut self) {
        self.ctrl0(0x20);
        self.pass_time();
        self.start();
        self.say("done");
        self.say_error("rxerr", "");
        let (rec, tec) = (self.random.byte(), self.random.byte());
        self.spi(&[0x24, rec]);
        self.spi(&[0x26, tec]);
    }

    /// With drawn bytes behind it, as many as it takes.
    pub fn command(&mut self, code: u8) {
        let row = TABLE_1.iter().find(|&&(command, ..)| command == code);
        let length = row.and_then(|&(_, length, ..)| length).unwrap_or(0);
        let mut bytes = vec![code];
        bytes.extend((0..length).map(|_| self.random.byte()));
        self.spi(&bytes);
    }

    /// Filters, masks and bit timing in whatever mode acts, and whether they were written.
    pub fn locked_write(&mut self) {
        let locked = |&code: &u8| matches!(code, 0x18 | 0x1A | 0x62..=0x84);
        let codes = TABLE_1.iter().map(|&(code, ..)| code).filter(locked);
        let codes: Vec<u8> = codes.collect();
        let any = self.random.pick(&codes);
        let code = self.random.pick(&[any, any, 0x18, 0x1A]);
        self.command(code);
        // Table 1 puts each of these reads at a fixed distance behind its write.
        let step = if code < 0x62 { 0xBE } else { 0x40 };
        self.spi(&[code + step]);
    }

    pub fn sleep(&mut self) {
        if self.device().acting != Mode::Sleep {
            self.ctrl0(0x60);
            for _ in 0..self.random.pick(&[0, 0, 1, 2]) {
                match self.random.below(9) {
                    0 => self.spi(&[0x54]),
                    1 => self.change_mode(),
                    2 => self.load_one(),
                    3 => self.say("begin"),
                    4 => self.say("done"),
                    5 => self.locked_write(),
                    6 => self.say("activity"),
                    _ => self.arrivals(),
                }
            }
            if self.random.chance(60) {
                self.spi(&[0x54]);
                self.say("done");
            }
            self.say("quiet");
        }
        for _ in 0..self.random.pick(&[1, 2, 4]) {
            match self.random.below(12) {
                0 | 1 => self.ctrl0(0x60),
                2 => self.say("quiet"),
                3 | 4 => self.say("activity"),
                5 => self.arrivals(),
                6 => self.impossible_event(),
                7 => self.say_error("rxerr", ""),
                8 => self.say("dominant"),
                9 => self.load_one(),
                _ => self.peek(),
            }
            let look = self.random.pick(&[0xD2, 0xDE]);
            self.spi(&[look]);
        }
    }

    pub fn enable_pins(&mut self) {
        for code in [0x1C, 0x1E, 0x22, 0x22] {
            let value = self.random.edge_byte();
            if self.random.chance(60) {
                self.spi(&[code, value]);
                self.say("pins");
            }
        }
    }

    pub fn turn_txen_pin(&mut self) {
        let high = self.device().txen_pin;
        self.say(if high { "txen 0" } else { "txen 1" });
        self.spi(&[0xDA]);
    }

    pub fn pass_time(&mut self) {
        let count = match self.random.below(6) {
            0 => self
                .random
                .pick(&[0, 65535, 65536, 70000, 131072])
                .to_string(),
            1 => format!("{}{:05}", self.random.bits(), self.random.below(100_000)),
            _ => self.random.below(1000).to_string(),
        };
        self.say(&format!("ticks {}", count));
        if self.random.chance(10) {
            self.spi(&[0x58]);
        }
        self.spi(&[0xFA]);
    }

    pub fn reset_once(&mut self) {
        match self.random.below(3) {
            0 => self.say("mr"),
            1 => self.spi(&[0x56]),
            _ => {
                let others = self.random.byte();
                self.spi(&[0x14, others | 0x08]);
                self.look_at_numbers(40);
                self.spi(&[0xD2]);
            }
        }
        self.look_at_numbers(40);
    }

    pub fn reset(&mut self) {
        self.reset_once();
        if self.random.chance(70) {
            self.look_at_everything();
        }
    }

    pub fn malformed_transfers(&mut self) {
        for _ in 0..self.random.between(2, 6) {
            let code = match self.random.below(8) {
                0 => self
                    .random
                    .pick(&[0x4E, 0xF4, 0xF6, 0x00, 0xB0, 0xC0, 0x70, 0x80]),
                1..=4 => self.random.byte(),
                _ => self.random.pick(TABLE_1).0,
            };
            self.malformed_transfer(code);
        }
    }

    /// A command with a length and a reply buffer that are right, nearly right, or any.
    fn malformed_transfer(&mut self, code: u8) {
        let row = TABLE_1.iter().find(|&&(command, ..)| command == code);
        let &(_, field, reply, _) = row.unwrap_or(&(code, None, 0, Job::WriteMessage));
        let right = 1 + field.unwrap_or(0);
        let length = match self.random.below(6) {
            0 => right + 1,
            1 => right - 1,
            2 => self.random.below(19),
            _ => right,
        };
        let mut bytes = vec![code];
        bytes.resize_with(length, || self.random.byte());
        let room = match self.random.below(5) {
            0 => reply.saturating_sub(1),
            1 => reply,
            2 => self.random.below(17),
            _ => 16,
        };
        // A reset by chance would undo too much of what the scenes have built up.
        if ![(0x56, 1), (0x14, 2)].contains(&(code, length)) {
            let bytes: String = bytes.iter().map(|b| format!(" {:02x}", b)).collect();
            self.say(&format!("spi/{}{}", room, bytes));
        }
    }
}
