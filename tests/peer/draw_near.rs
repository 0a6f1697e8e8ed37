//! A frame, and filters that nearly match it.

use crate::commands::{Job, TABLE_1};
use crate::draw::Drawer;
use crate::frame::{data_bytes, Frame};
use std::cmp::Ordering;

/// A filter's bits, counted from byte 1's bit 7 on.
const PLACES: usize = 48;
const RTR: usize = 11;
const IDE: usize = 12;
/// Bit 0 of byte 4, which doesn't count.
const UNNAMED: usize = 31;

impl Drawer {
    /// Mostly of a length at which filters see a byte more or less.
    fn scan(&mut self) -> Frame {
        let mut frame = self.any_frame();
        frame.length_code = self.random.pick(&[0, 1, 2, 8, frame.length_code]);
        let length = data_bytes(frame.length_code, frame.remote);
        frame.data.resize_with(length, || self.random.edge_byte());
        frame
    }

    /// Any, and those more often that have no neighbour that shows the same mistake.
    fn counted_place(&mut self) -> usize {
        let any = self.random.below(PLACES - 1);
        let any = any + usize::from(any >= UNNAMED);
        let special = self.random.pick(&[RTR, IDE, UNNAMED + 1]);
        self.random.pick(&[any, any, special])
    }

    /// A filter and its mask, of which the bit at the place `first` is the first counted one that
    /// differs from what is seen; none does where there is no such place.
    fn filter_near(&mut self, seen: [u8; 6], first: usize) -> ([u8; 6], [u8; 6]) {
        let left_out = self.random.pick(&[0, 0, 20, 60]);
        let more = self.random.pick(&[0, 0, 30, 100]);
        let (mut filter, mut mask) = (seen, [0; 6]);
        for place in 0..PLACES {
            let counts = place == first || !self.random.chance(left_out);
            let differs = match place.cmp(&first) {
                Ordering::Less => (!counts || place == UNNAMED) && self.random.chance(60),
                Ordering::Equal => true,
                Ordering::Greater => self.random.chance(more),
            };
            let bit = 0x80 >> (place % 8);
            mask[place / 8] |= if counts { bit } else { 0 };
            filter[place / 8] ^= if differs { bit } else { 0 };
        }
        (filter, mask)
    }

    /// Gives the frame that is to come last. Mostly each filter nearly matches it, and none does.
    pub fn set_table(&mut self) -> Frame {
        if self.random.chance(6) {
            return self.scan();
        }
        let mode = self.random.pick(&[0x80, 0x80, 0xA0, 0xE0]);
        self.ctrl0(mode);
        if self.random.chance(6) {
            self.write_filters(100);
            return self.frame_at_filter();
        }
        let frame = self.scan();
        let some = self.random.byte() & self.random.byte();
        let hits = if self.random.chance(16) { some } else { 0 };
        let mut table = [([0; 6], [0; 6]); 8];
        for (n, pair) in table.iter_mut().enumerate() {
            let first = match hits >> n & 1 {
                0 => self.counted_place(),
                _ => PLACES,
            };
            *pair = self.filter_near(frame.filter_bytes(), first);
        }
        for &(command, _, _, job) in TABLE_1 {
            let written = match job {
                Job::WriteFilter(n) => table[n].0,
                Job::WriteMask(n) => table[n].1,
                _ => continue,
            };
            self.spi(&[&[command][..], &written[..]].concat());
        }
        frame
    }
}
