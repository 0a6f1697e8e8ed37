//! Scenes at a full receive FIFO, where a frame takes the latest message's place and no other's.

use crate::device::ROOM;
use crate::draw::{Drawer, FIFO_READS};
use crate::draw_text::Words;

/// Where it shows that a frame counts as queued.
const OF_AN_ARRIVAL: [u8; 6] = [0xE2, 0xDE, 0xDA, 0xEA, 0x42, 0x44];

impl Drawer {
    /// So many come, less those that wait already. With filtering off all get in, so that a frame may then meet a
    /// full queue and no filter.
    pub fn fill_queue(&mut self, arrivals: usize) {
        if self.device().bus_off {
            return;
        }
        self.spi(&[0x16, 0x00]);
        self.ctrl0(0x00);
        for _ in self.device().receive_fifo.len()..arrivals {
            self.one_arrival();
        }
    }

    /// Which messages stayed shows only when all are read.
    pub fn full_queue(&mut self) {
        for _ in 0..self.random.between(1, 3) {
            let more = self.random.pick(&[0, 1, 2, 4]);
            self.fill_queue(ROOM + more);
            self.at_full_queue();
            self.look_at_numbers(50);
            self.look_at(&OF_AN_ARRIVAL);
        }
        if self.random.chance(70) {
            self.read_all();
        }
    }

    fn at_full_queue(&mut self) {
        match self.random.below(13) {
            0..=2 => self.more_come(),
            3 | 4 => self.read_one_two_come(),
            5..=7 => self.own_come(),
            8 | 9 => self.strangers_come(),
            10 => self.empty_at_once(),
            _ => {
                self.enter_state();
                self.more_come();
            }
        }
    }

    /// Each over the one before, if the mode takes them. REC falls with each, and each has a time tag of its own.
    fn more_come(&mut self) {
        self.test_write(0x24, &[2, 60, 130]);
        for _ in 0..self.random.between(2, 5) {
            match self.random.below(12) {
                0 => self.impossible_event(),
                1..=3 => self.pass_time(),
                _ => {}
            }
            self.one_arrival();
        }
    }

    /// A read makes room for one: of two that come then, the second goes over the first.
    fn read_one_two_come(&mut self) {
        for _ in 0..self.random.between(1, 3) {
            let code = self.random.pick(&FIFO_READS);
            self.spi(&[code]);
            self.one_arrival();
            self.one_arrival();
        }
    }

    fn own_come(&mut self) {
        self.ctrl0(0x20);
        for _ in 0..self.random.between(2, 4) {
            self.start();
            self.say("done");
        }
    }

    /// The filters have the first word, so that a stranger takes nobody's place.
    fn strangers_come(&mut self) {
        self.turn_filtering();
        for _ in 0..self.random.between(2, 5) {
            let frame = self.frame_at_filter();
            self.say_frame(&Words::of(&frame));
            self.look_at_numbers(25);
            self.look_at(&[0xDE, 0xDA]);
        }
    }

    /// Nothing is lost to those that come after it.
    fn empty_at_once(&mut self) {
        if self.random.chance(50) {
            self.spi(&[0x5A]);
            self.look_at_numbers(50);
        } else {
            self.reset_once();
            self.ctrl0(0x00);
        }
        self.more_come();
    }

    /// The last read finds none.
    fn read_all(&mut self) {
        for _ in 0..=self.device().receive_fifo.len() {
            let code = self.random.pick(&[0x46, 0x46, 0x48, 0x4A, 0x4C]);
            self.spi(&[code]);
            self.look_at_numbers(15);
        }
    }
}
