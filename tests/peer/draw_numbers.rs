//! Scenes of equal frames: which of them waits, and which was read, only their arrival numbers tell.

use crate::device::{Mode, ROOM};
use crate::draw::{Drawer, FIFO_READS};
use crate::draw_text::{Words, NEARLY_NUMBERS};
use crate::frame::Frame;

impl Drawer {
    /// Now and then: the next arrival hides what the temporary buffer had, the next read or reset what waited.
    pub fn look_at_numbers(&mut self, percent: usize) {
        if self.random.chance(percent) {
            self.say("numbers");
        }
        // Of all the lines that can't be read, too few would be these.
        if self.random.chance(1) {
            self.say_any(&NEARLY_NUMBERS);
        }
    }

    /// No time passes, lest the time tags tell them apart.
    pub fn equal_frames(&mut self) {
        let frame = self.frame_at_filter();
        for _ in 0..self.random.between(3, 7) {
            self.number_again();
            self.among_equals(&frame);
            self.look_at_numbers(75);
            if self.device().bus_off {
                return;
            }
        }
    }

    /// In the other modes most steps give no number.
    fn number_again(&mut self) {
        let takes = matches!(self.device().acting, Mode::Normal | Mode::Monitor);
        if !takes && self.random.chance(80) {
            self.ctrl0(0x00);
        }
    }

    fn among_equals(&mut self, frame: &Frame) {
        match self.random.below(18) {
            0..=2 => self.equals_come(frame, 4),
            3..=5 => self.equals_over_each_other(frame),
            6 | 7 => self.strangers_between(frame),
            8..=10 => self.own_equals(frame),
            11 => self.impossible_event(),
            12 | 13 => {
                self.spi(&[0x5A]);
                self.look_at_numbers(75);
                self.equals_come(frame, 2);
            }
            14 | 15 => self.reset_once(),
            _ => {
                self.enter_state();
                self.equals_come(frame, 3);
            }
        }
    }

    /// At least one and at most so many.
    fn equals_come(&mut self, frame: &Frame, most: usize) {
        for _ in 0..self.random.between(1, most) {
            self.say_frame(&Words::of(frame));
            self.look_at_numbers(15);
        }
    }

    fn equals_over_each_other(&mut self, frame: &Frame) {
        // All get in.
        self.spi(&[0x16, 0x00]);
        for _ in self.device().receive_fifo.len()..ROOM {
            self.say_frame(&Words::of(frame));
        }
        for _ in 0..self.random.between(1, 3) {
            self.equals_come(frame, 3);
            self.look_at_numbers(75);
            self.read_some();
        }
    }

    /// Which of them a read took shows by those that are left.
    fn read_some(&mut self) {
        for _ in 0..self.random.pick(&[1, 1, 2, 6]) {
            let code = self.random.pick(&FIFO_READS);
            self.spi(&[code]);
            self.look_at_numbers(25);
        }
    }

    /// A stranger has a number too, which leaves a gap between those of the messages that wait.
    fn strangers_between(&mut self, frame: &Frame) {
        self.turn_filtering();
        for _ in 0..self.random.between(2, 4) {
            let stranger = self.frame_at_filter();
            self.say_frame(&Words::of(&stranger));
            self.look_at_numbers(40);
            self.say_frame(&Words::of(frame));
        }
    }

    /// In loopback they are numbered like the others, on the bus they are not.
    fn own_equals(&mut self, frame: &Frame) {
        let mode = self.random.pick(&[0x20, 0x20, 0x00]);
        self.ctrl0(mode);
        if self.random.chance(40) {
            self.turn_filtering();
        }
        for _ in 0..self.random.between(1, 3) {
            let message = self.message_bytes(frame);
            self.spi(&message);
            self.start();
            self.say("done");
            self.look_at_numbers(40);
            // While loopback acts, it is answered A1.
            if self.random.chance(25) {
                self.equals_come(frame, 1);
            }
        }
    }
}
