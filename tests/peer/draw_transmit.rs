//! Scenes of the sending side.

use crate::device::{Mode, CTRL1_FILTON, ROOM};
use crate::draw::Drawer;
use crate::frame::Frame;

impl Drawer {
    /// Table 2's bytes, with whatever the device has to ignore drawn at random.
    pub fn message_bytes(&mut self, frame: &Frame) -> Vec<u8> {
        let id = frame.filter_bytes();
        let junk = self.random.byte();
        let mut bytes = vec![0x12, self.random.byte(), id[0]];
        if frame.extended {
            let srr = junk & 0x10;
            let rtr = u8::from(frame.remote);
            bytes.extend_from_slice(&[id[1] & !0x10 | srr, id[2], id[3] | rtr]);
        } else {
            bytes.push(id[1] | junk & 0x07);
        }
        let upper_half = self.random.pick(&[0x00, junk & 0xF0]);
        bytes.push(frame.length_code | upper_half);
        bytes.extend_from_slice(&frame.data);
        let room = 8 - frame.data.len();
        if room > 0 && self.random.chance(30) {
            let more = self.random.between(1, room);
            bytes.extend((0..more).map(|_| junk | 1));
        }
        bytes
    }

    pub fn load_one(&mut self) {
        let frame = self.any_frame();
        let mut bytes = self.message_bytes(&frame);
        match self.random.below(30) {
            0 => drop(bytes.pop()),
            1 => bytes.truncate(self.random.between(1, 6)),
            2 => bytes.resize(self.random.between(12, 17), 0x5A),
            _ => {}
        }
        self.spi(&bytes);
    }

    pub fn load_messages(&mut self) {
        let missing = ROOM + 1 - self.device().messages_to_send();
        let count = self.random.pick(&[1, 2, 3, missing, missing]);
        for _ in 0..count {
            self.load_one();
        }
        self.spi(&[0xE2]);
    }

    pub fn enable(&mut self) {
        match self.random.below(8) {
            0 | 1 => self.say("txen 1"),
            2 | 3 => self.ctrl1(0x40),
            4 => self.ctrl1(0x60),
            5 => self.ctrl1(0xE0),
            _ => self.ctrl1(0x80),
        }
    }

    /// Leaves FILTON as it is, mostly.
    pub fn ctrl1(&mut self, value: u8) {
        let kept = self.device().ctrl1 & CTRL1_FILTON;
        let flip = self.random.pick(&[0, 0, 0, CTRL1_FILTON]);
        self.spi(&[0x16, value | kept ^ flip]);
    }

    /// Brings about all that a begin needs, mostly.
    pub fn start(&mut self) {
        let sends = matches!(self.device().acting, Mode::Normal | Mode::Loopback);
        if !sends && self.random.chance(85) {
            let mode = self.random.pick(&[0x00, 0x00, 0x20]);
            self.ctrl0(mode);
        }
        if self.device().messages_to_send() == 0 && self.random.chance(95) {
            self.load_one();
        }
        if !self.device().enabled() && self.random.chance(90) {
            self.enable();
        }
        self.say("begin");
    }

    fn interfere(&mut self) {
        match self.random.below(16) {
            0 | 1 => self.spi(&[0x54]),
            2 => self.spi(&[0x52]),
            3 => {
                let code = self.random.pick(&[0x5A, 0x5A, 0x56, 0x58]);
                self.spi(&[code]);
            }
            4 => {
                let mode = self.random.pick(&[0x00, 0x20, 0x40, 0x60, 0x80]);
                self.ctrl0(mode);
            }
            5 => {
                let same = (self.device().acting as u8) << 5;
                self.ctrl0(same);
            }
            6 => self.ctrl0(0x60),
            7 | 8 => self.load_messages(),
            9 => {
                let value = self.random.pick(&[0x00, 0x20, 0x40, 0x60, 0x80]);
                self.ctrl1(value);
            }
            10 => self.say("txen 0"),
            11 => self.say("quiet"),
            12 => self.arrivals(),
            13 => self.say("begin"),
            14 => self.pass_time(),
            _ => self.peek(),
        }
    }

    fn finish(&mut self) {
        match self.random.below(20) {
            0..=3 => self.say_error("txerr", " counted"),
            4 | 5 => self.say_error("txerr", " exempt"),
            6 | 7 => self.say("lost"),
            8 => {}
            _ => self.say("done"),
        }
        let code = self
            .random
            .pick(&[0xDA, 0xE2, 0xD4, 0xEC, 0xEE, 0xDE, 0x46]);
        self.spi(&[code]);
    }

    pub fn send(&mut self) {
        for _ in 0..self.random.pick(&[1, 1, 2, 4, 9]) {
            self.start();
            for _ in 0..self.random.pick(&[0, 0, 1, 2]) {
                self.interfere();
            }
            self.finish();
        }
    }

    /// The only way to see what was kept of a message.
    pub fn send_in_loopback(&mut self) {
        if self.device().acting != Mode::Loopback {
            self.ctrl0(0x20);
        }
        for _ in 0..self.random.pick(&[1, 2, 4]) {
            self.start();
            self.say("done");
            self.look_at_numbers(25);
            let code = self
                .random
                .pick(&[0x42, 0x44, 0x46, 0x46, 0x48, 0x4A, 0xEE]);
            self.spi(&[code]);
        }
    }

    /// Which messages wait shows only when they go.
    pub fn send_what_waits(&mut self) {
        let mode = self.random.pick(&[0x00, 0x20]);
        self.ctrl0(mode);
        self.ctrl1(0x80);
        for _ in 0..3 {
            self.say("begin");
            if self.device().running.is_none() {
                break;
            }
            self.say("done");
            self.say_any(&["spi EE", "spi 46"]);
        }
    }

    /// A ninth entry is not stored, also of a message that 0x54 left alone.
    pub fn full_history(&mut self) {
        for _ in self.device().history.len()..ROOM {
            self.start();
            self.say("done");
        }
        self.start();
        if self.random.chance(50) {
            self.spi(&[0x54]);
        }
        self.say("done");
        self.look_at(&[0xE2, 0xEE, 0xE2, 0xEE]);
    }

    pub fn one_shot(&mut self) {
        if self.random.chance(80) {
            self.say("txen 0");
        }
        if self.device().messages_to_send() == 0 {
            self.load_one();
        }
        let value = self.random.pick(&[0x60, 0x60, 0x40, 0xE0, 0xA0]);
        self.ctrl1(value);
        self.start();
        self.spi(&[0xD4]);
        self.finish();
        self.say("begin");
        self.spi(&[0xDA]);
    }
}
