//! Scenes of the receiving side: frames, filters and masks.

use crate::commands::{Job, TABLE_1};
use crate::device::{Mode, CTRL1_FILTON};
use crate::draw::{Drawer, FIFO_READS};
use crate::draw_text::Words;
use crate::frame::{data_bytes, Frame};

impl Drawer {
    pub fn any_frame(&mut self) -> Frame {
        let extended = self.random.chance(45);
        let bits = if extended { 29 } else { 11 };
        let any = self.random.bits() as u32 & ((1 << bits) - 1);
        let identifier = match self.random.below(6) {
            0 => 1 << self.random.below(bits),
            1 => self.random.pick(&[0, 7, (1 << bits) - 1]),
            // Of any number of digits.
            2 => any >> self.random.below(bits),
            _ => any,
        };
        let mut frame = Frame {
            identifier,
            extended,
            remote: self.random.chance(20),
            length_code: self.random.below(16) as u8,
            data: Vec::new(),
        };
        let length = data_bytes(frame.length_code, frame.remote);
        frame.data = (0..length).map(|_| self.random.edge_byte()).collect();
        frame
    }

    pub fn say_frame(&mut self, words: &Words) {
        let acknowledged = self.random.below(4) < 3;
        self.say(&words.arriving(acknowledged));
    }

    pub fn one_arrival(&mut self) {
        let mut words = Words::of(&self.any_frame());
        if self.random.chance(15) {
            words = words.as_in_a_trace(self.random.below(6));
        }
        self.say_frame(&words);
    }

    /// The question is open in every mode, and whether filtering is on or not.
    pub fn ask_filters(&mut self) {
        let Words { header, data } = match self.random.below(8) {
            0 => self.impossible_frame(),
            1 => Words::of(&self.any_frame()),
            _ => Words::of(&self.frame_at_filter()),
        };
        self.say(&format!("hits {}{}", header, data));
    }

    pub fn arrivals(&mut self) {
        let count = self.random.pick(&[1, 1, 2, 3, 9, 10]);
        for _ in 0..count {
            self.one_arrival();
            if self.random.chance(30) {
                self.peek();
            }
        }
    }

    /// Where filters are alike, several hit at once; which ones, their masks decide.
    fn any_filter(&mut self, n: usize, alike: bool) -> [u8; 6] {
        if alike && n > 0 && self.random.chance(50) {
            let earlier = self.random.below(n);
            return self.device().filters[earlier];
        }
        let mut bytes = self.any_frame().filter_bytes();
        // The drawn bit in byte 4's lowest place must not count.
        bytes[3] |= self.random.byte() & 1;
        bytes
    }

    /// A weak mask lets nearly everything pass and hides the filters after it.
    fn any_mask(&mut self, weak: bool) -> [u8; 6] {
        let bit = self.random.below(48);
        let mut mask = match self.random.below(8) {
            _ if weak => [0; 6],
            0..=2 => [0xFF; 6],
            3 => [0xFF, 0xF8, 0, 0, 0, 0],
            4 => [0xFF, 0xFF, 0xFF, 0xFF, 0, 0],
            _ => [0; 6].map(|_: u8| self.random.byte()),
        };
        mask[bit / 8] ^= 0x80 >> (bit % 8);
        mask
    }

    /// Each filter and each mask with this chance.
    pub fn write_filters(&mut self, percent: usize) {
        let weak_from = self.random.pick(&[0, 3, 7, 8, 8, 8]);
        let alike = self.random.chance(50);
        for &(command, _, _, job) in TABLE_1 {
            let written = match job {
                Job::WriteFilter(n) => self.any_filter(n, alike),
                Job::WriteMask(n) => self.any_mask(n >= weak_from),
                _ => continue,
            };
            if self.random.chance(percent) {
                self.spi(&[&[command][..], &written[..]].concat());
            }
        }
    }

    /// A few are written anew, mostly before filtering is on, and the set is asked for before and after.
    pub fn tune_filters(&mut self) {
        self.ask_filters();
        self.write_filters(10);
        self.ask_filters();
    }

    pub fn set_filters(&mut self) {
        if self.device().acting != Mode::Initialization && self.random.chance(95) {
            let mode = self.random.pick(&[0x80, 0x80, 0xA0, 0xE0]);
            self.ctrl0(mode);
        }
        self.write_filters(100);
        if self.random.chance(30) {
            let reads = TABLE_1.iter().filter(|&&(_, _, reply, _)| reply == 6);
            let codes: Vec<u8> = reads.map(|&(command, ..)| command).collect();
            for _ in 0..4 {
                let code = self.random.pick(&codes);
                self.spi(&[code]);
            }
        }
        for _ in 0..self.random.below(3) {
            self.tune_filters();
        }
        let btr = self.random.pick(&[0x18, 0x1A]);
        let value = self.random.edge_byte();
        self.spi(&[btr, value]);
        let mode = self.random.pick(&[0x00, 0x00, 0x20, 0x40, 0x80]);
        self.ctrl0(mode);
        self.filtered_arrivals();
    }

    /// A frame that one filter lets pass, but for at most one bit.
    pub fn frame_at_filter(&mut self) -> Frame {
        let n = self.random.below(8);
        let mut wanted = self.device().filters[n];
        let mask = self.device().masks[n];
        if self.random.chance(50) {
            for i in 0..6 {
                wanted[i] ^= self.random.byte() & !mask[i];
            }
        }
        if self.random.chance(60) {
            // Mostly a bit that counts; bits of an identifier only where the frame has them.
            let standard = wanted[1] & 0x08 == 0;
            let any = self.random.below(48);
            // RTR more often: it has no neighbour that shows the same mistake.
            let mut bit = self.random.pick(&[any, any, any, any, any, 11]);
            for _ in 0..20 {
                let lacking = standard && (13..32).contains(&bit);
                if !lacking && mask[bit / 8] << (bit % 8) & 0x80 != 0 {
                    break;
                }
                bit = self.random.below(48);
            }
            wanted[bit / 8] ^= 0x80 >> (bit % 8);
        }
        let extended = wanted[1] & 0x08 != 0;
        let remote = wanted[1] & 0x10 != 0;
        let high = u32::from(wanted[0]) << 3 | u32::from(wanted[1]) >> 5;
        let low =
            u32::from(wanted[1] & 7) << 15 | u32::from(wanted[2]) << 7 | u32::from(wanted[3]) >> 1;
        // Bytes that are to compare as zero may as well be lacking.
        let shortest = match (wanted[4], wanted[5]) {
            (0, 0) => 0,
            (_, 0) => 1,
            _ => 2,
        };
        let length_code = self.random.between(shortest, 4) as u8;
        let mut data = vec![wanted[4], wanted[5], self.random.byte(), self.random.byte()];
        data.truncate(data_bytes(length_code, remote));
        Frame {
            identifier: if extended { high << 18 | low } else { high },
            extended,
            remote,
            length_code,
            data,
        }
    }

    pub fn filtered_arrivals(&mut self) {
        if self.device().ctrl1 & CTRL1_FILTON == 0 && self.random.chance(80) {
            let others = self.random.pick(&[0x00, 0x80, 0x4F]);
            self.spi(&[0x16, CTRL1_FILTON | others]);
        }
        self.test_write(0x24, &[2, 60, 130]);
        // Without reads the FIFO fills up, and still the filters have the first word.
        let (count, looks): (usize, &[u8]) = if self.random.chance(25) {
            (20, &[0xDA, 0xDE, 0xEA])
        } else {
            let count = self.random.between(3, 12);
            (count, &[0xDA, 0xDA, 0xDE, 0xEA, 0x42, 0x46, 0x48, 0x4C])
        };
        for _ in 0..count {
            let frame = if self.random.chance(90) {
                self.frame_at_filter()
            } else {
                self.any_frame()
            };
            self.say_frame(&Words::of(&frame));
            self.look_at_numbers(15);
            self.look_mostly(looks);
            if self.random.chance(25) {
                // It must leave no trace.
                self.ask_filters();
                self.look_mostly(looks);
            }
        }
    }

    fn look_mostly(&mut self, looks: &[u8]) {
        let look = self.random.pick(looks);
        if self.random.chance(60) {
            self.spi(&[look]);
        }
    }

    pub fn drain(&mut self) {
        for _ in 0..self.random.pick(&[2, 9, 9]) {
            let code = self.random.pick(&FIFO_READS);
            self.spi(&[code]);
            if self.device().receive_fifo.is_empty() {
                break;
            }
        }
        for _ in 0..self.random.pick(&[2, 9, 9]) {
            self.spi(&[0xEE]);
            if self.device().history.is_empty() {
                break;
            }
        }
    }
}
