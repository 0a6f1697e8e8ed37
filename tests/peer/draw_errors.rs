//! Scenes of errors: the counters at their edges, bus off and the way back.

use crate::device::{Mode, CTRL0_BOR, CTRL0_RESET, RECOVERY_GROUPS};
use crate::draw::Drawer;

const KINDS: [&str; 5] = ["stuff", "ack", "crc", "form", "bit"];

impl Drawer {
    pub fn say_error(&mut self, event: &str, suffix: &str) {
        let kind = self.random.pick(&KINDS);
        self.say(&format!("{} {}{}", event, kind, suffix));
    }

    /// One step of a counter from where it shows, and looks before the next.
    pub fn count_errors(&mut self) {
        for _ in 0..self.random.between(1, 4) {
            match self.random.below(8) {
                0 => {
                    self.test_write(0x24, &[0, 95, 127, 255]);
                    self.say_error("rxerr", "");
                }
                1 | 2 => {
                    self.test_write(0x24, &[87, 88, 119, 120, 247, 248, 255]);
                    self.say("dominant");
                }
                3 | 4 => {
                    self.test_write(0x24, &[0, 1, 97, 127, 127, 128, 255]);
                    self.counted_arrival();
                }
                5 => {
                    self.test_write(0x26, &[0, 1, 96, 97, 128, 129]);
                    self.start();
                    self.say("done");
                }
                _ => {
                    self.test_write(0x26, &[87, 88, 119, 120, 247, 248, 255]);
                    self.start();
                    self.say_error("txerr", " counted");
                }
            }
            self.look_at(&[0xEA, 0xEC, 0xE2, 0xDC]);
        }
        if self.random.chance(20) {
            // Where errors are told and not counted.
            self.ctrl0(0x40);
            self.say_error("rxerr", "");
            self.look_at(&[0xEA, 0xDC, 0xDE]);
        }
    }

    /// Mostly: else the step is one from wherever the counter stands.
    pub fn test_write(&mut self, code: u8, edges: &[u8]) {
        let value = self.random.pick(edges);
        if self.random.chance(75) {
            self.spi(&[code, value]);
        }
    }

    /// Only normal mode counts a frame.
    fn counted_arrival(&mut self) {
        if self.device().acting != Mode::Normal && self.random.chance(60) {
            self.ctrl0(0x00);
        }
        self.one_arrival();
    }

    pub fn go_bus_off(&mut self) {
        if self.random.chance(30) {
            self.spi(&[0x26, 0xE0]);
        } else {
            let value = self.random.pick(&[247, 248, 249, 255]);
            self.spi(&[0x26, value]);
        }
        for _ in 0..self.random.pick(&[1, 2, 5]) {
            self.start();
            self.say_error("txerr", " counted");
        }
        self.say("recessive");
        for _ in 0..self.random.between(2, 8) {
            match self.random.below(11) {
                0 => self.spi(&[0x26, 0x00]),
                1 => self.count_errors(),
                2 => self.arrivals(),
                3 => self.say("begin"),
                4 => self.say("recessive"),
                5 | 6 => self.reset_once(),
                7 | 8 => self.any_mode(),
                _ => self.peek(),
            }
            let code = self.random.pick(&[0xF8, 0xF8, 0xEC, 0xE2]);
            self.spi(&[code]);
        }
    }

    /// Groups count in every mode, asleep too.
    fn any_mode(&mut self) {
        let awake = self.random.pick(&[0x00, 0x20, 0x40, 0x80, 0xE0]);
        let mode = self.random.pick(&[awake, 0x60]);
        self.ctrl0(mode);
        self.spi(&[0x54]);
        self.say("quiet");
    }

    pub fn recessive_groups(&mut self) {
        let target = self.random.pick(&[1, 126, 127, 127]);
        if self.random.chance(75) {
            self.any_mode();
        }
        self.say("recessive");
        if self.device().bus_off {
            // A fixed number, lest a device that doesn't count takes up the whole script.
            for _ in self.device().groups..target {
                self.say("recessive");
            }
        }
        self.spi(&[0xF8]);
        if self.device().groups < RECOVERY_GROUPS - 2 {
            return;
        }
        for _ in 0..self.random.between(2, 6) {
            match self.random.below(5) {
                0 | 1 => {
                    let value = self.device().ctrl0 & !CTRL0_RESET ^ CTRL0_BOR;
                    self.spi(&[0x14, value]);
                }
                2 | 3 => self.any_mode(),
                _ => {}
            }
            self.say("recessive");
            self.look_at(&[0xF8, 0xDC, 0xEA, 0xEC, 0xE2, 0xD2, 0xDE]);
            if !self.device().bus_off {
                break;
            }
        }
    }
}
