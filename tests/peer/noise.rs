//! Hostile bytes: drawn scripts that were damaged, pure chance, and lines that never seem to end.

use crate::device::RECOVERY_GROUPS;
use crate::draw::{draw, text};
use crate::draw_text::NEARLY_NUMBERS;
use crate::random::Random;
use crate::script::LONGEST_LINE;

#[derive(Clone)]
pub struct Noise {
    random: Random,
    pub bytes: usize,
    left: usize,
    frames_come: bool,
    short_lines_come: bool,
    last: &'static [u8],
}

impl Noise {
    /// The last line of all is given; it gets no newline.
    pub fn new(seed: u64, bytes: usize, last: &'static [u8]) -> Noise {
        Noise {
            random: Random::new(seed),
            bytes,
            left: bytes,
            frames_come: true,
            short_lines_come: true,
            last,
        }
    }

    pub fn chunk(&mut self) -> Option<Vec<u8>> {
        if self.left == 0 {
            return None;
        }
        let mut chunk = match self.random.below(20) {
            _ if self.frames_come && self.left < self.bytes / 4 * 3 => self.many_frames(),
            _ if self.short_lines_come && self.left < self.bytes / 2 => self.short_lines(),
            0 => self.long_line(),
            1 | 2 => self.pure_chance(),
            _ => self.damaged_script(),
        };
        if chunk.len() + 1 + self.last.len() >= self.left {
            chunk.truncate(self.left.saturating_sub(1 + self.last.len()));
            chunk.push(b'\n');
            chunk.extend_from_slice(self.last);
            chunk.truncate(self.left);
        }
        self.left -= chunk.len();
        Some(chunk)
    }

    /// Comes once, after a quarter. With a million bytes in all it is a thousand frames, so that arrival numbers after
    /// them need more than eight bits.
    fn many_frames(&mut self) -> Vec<u8> {
        self.frames_come = false;
        // Whatever state the device is in: normal mode, and out of bus off.
        let groups = "recessive\n".repeat(usize::from(RECOVERY_GROUPS));
        let mut chunk = format!("\nmr\nspi 14 04\n{}", groups);
        for _ in 0..self.bytes / 1000 {
            chunk.push_str("frame 0 std data 0 ack\n");
            match self.random.below(40) {
                0 | 1 => chunk.push_str("numbers\n"),
                2 => chunk.extend([self.random.pick(&NEARLY_NUMBERS), "\n"]),
                _ => {}
            }
        }
        chunk.into_bytes()
    }

    /// Comes once, half-way. With a million bytes in all it is a hundred thousand lines, so that the numbers of those
    /// after them need more than sixteen bits.
    fn short_lines(&mut self) -> Vec<u8> {
        self.short_lines_come = false;
        let lines = ["", "", "", "", "", "", "#", "x", "mr", "spi", "numbers"];
        let mut chunk = Vec::new();
        for _ in 0..self.bytes / 10 {
            chunk.extend_from_slice(self.random.pick(&lines).as_bytes());
            chunk.push(b'\n');
        }
        chunk
    }

    fn pure_chance(&mut self) -> Vec<u8> {
        let length = self.random.below(5000);
        (0..length).map(|_| self.random.byte()).collect()
    }

    fn damaged_script(&mut self) -> Vec<u8> {
        let seed = self.random.bits();
        let length = self.random.between(20, 200);
        let script = text(&draw(seed, length)).into_bytes();
        let rate = self.random.pick(&[0, 10, 100, 1000]);
        let mut damaged = Vec::with_capacity(script.len());
        for byte in script {
            if rate == 0 || self.random.below(rate) > 0 {
                damaged.push(byte);
            } else {
                self.damage(&mut damaged, byte);
            }
        }
        damaged
    }

    fn damage(&mut self, damaged: &mut Vec<u8>, byte: u8) {
        match self.random.below(9) {
            0 => damaged.push(byte ^ 1 << self.random.below(8)),
            1 => {}
            2 => damaged.extend_from_slice(&[byte, byte]),
            3 => damaged.extend_from_slice(&[byte, self.random.byte()]),
            4 => damaged.extend_from_slice(&[byte, 0]),
            5 => damaged.extend_from_slice(&[byte, b'\r']),
            6 => damaged.extend_from_slice(&[byte, self.random.pick(b" \t#\n/")]),
            // Joins this line to the one before.
            7 => {
                if let Some(end) = damaged.iter().rposition(|&b| b == b'\n') {
                    damaged[end] = self.random.pick(b" \0\r");
                }
                damaged.push(byte);
            }
            _ => {
                let again = damaged.len().saturating_sub(self.random.below(40));
                damaged.extend_from_within(again..);
                damaged.push(byte);
            }
        }
    }

    /// Just long enough to be read, just too long, or far too long.
    fn long_line(&mut self) -> Vec<u8> {
        let length = match self.random.below(4) {
            0 => LONGEST_LINE,
            1 => LONGEST_LINE + 1,
            2 => self.random.between(LONGEST_LINE - 3, LONGEST_LINE + 3),
            _ => self.random.below(4 * LONGEST_LINE),
        };
        let (start, fill): (&[u8], &[u8]) = match self.random.below(11) {
            0 => (b"\nspi D2", b" "),
            1 => (b"\nspi", b" 00"),
            2 => (b"\nticks ", b"7"),
            3 => (b"\nframe ", b"0"),
            4 => (b"\nframe 0 std data ", b"1"),
            5 => (b"\nhits 0 ext data 8", b" 00"),
            6 => (b"\npins #", b"#x"),
            7 => (b"\nnumbers", b" "),
            8 => (b"\nnumber", b"s"),
            9 => (b"\n", b"\t\r "),
            _ => (b"\n", b"\0\xFF"),
        };
        let mut line = start.to_vec();
        // Its own newline before it is not part of the line.
        while line.len() < 1 + length {
            line.extend_from_slice(fill);
        }
        line.truncate(1 + length);
        let ends: [&[u8]; 4] = [b"spi D2\n", b"\n", b"# spi 56\n", b"#\n"];
        line.extend_from_slice(self.random.pick(&ends));
        line
    }
}
