//! Requests drawn without regard to the state, and the many ways to write one line.

use crate::draw::Drawer;
use crate::frame::Frame;
use crate::random::Random;
use crate::script::LONGEST_LINE;

const PLAIN: [&str; 11] = [
    "dominant",
    "begin",
    "done",
    "lost",
    "recessive",
    "quiet",
    "activity",
    "txen 0",
    "txen 1",
    "pins",
    "numbers",
];
const UNREADABLE: &str =
    "SPI D2|spi D|spi 0D2|spi G2|spi/17 D2|spi/ D2|spi /16 D2|spi/a D2|spi/-1 D2|\
    spi: D2|spid2|Pins|pins pins|begin now|ticks|ticks 1 2|ticks -1|ticks 1a|txen|txen 2|txen 01|\
    rxerr|rxerr bus|rxerr bit counted|txerr bit|txerr bus counted|txerr bit maybe|\
    frame|frame 123|frame 12G std data 0 ack|frame 123 STD data 0 ack|frame 123 std text 0 ack|\
    frame 123 std data x ack|frame 123 std data A ack|frame 123 std data 0|\
    frame 123 std data 1 ack 1|frame 123 std data 0 Ack|frame 123 std data 1 ack 00 ABC 1|\
    frame 123456789ABCDEFG|frame 123456789ABCDEFGH|\
    hits|hits 123|hits 12G std data 0|hits 123 ext|hits 123 Ext data 0|hits 123 std text 0|\
    hits 123 std data|hits 123 std data A|hits 123 std remote 0 ack|hits 123 std data 1 noack 00|\
    hits 123 std data 1 1|hits 123 std data 1 00 ABC 1|hit 123 std data 0|Hits 123 std data 0|\
    hits123 std data 0|pins \"all\"|begin \\now|mr \u{7F}~!|\u{E9}";
pub const NEARLY_NUMBERS: [&str; 8] = [
    "number",
    "numbers 1",
    "NUMBERS",
    "Numbers",
    "numbers numbers",
    "numbers,",
    "numbers/1",
    "num bers",
];
const EIGHT: &str = " 01 02 03 04 05 06 07 08";

/// What `frame` and `hits` say of a frame: `frame` has the acknowledgement in between.
pub struct Words {
    pub header: String,
    pub data: String,
}

impl Words {
    pub fn of(frame: &Frame) -> Words {
        Words {
            header: format!(
                "{} {} {}",
                frame.name(),
                if frame.remote { "remote" } else { "data" },
                frame.length_code
            ),
            data: frame.data.iter().map(|b| format!(" {:02X}", b)).collect(),
        }
    }

    /// The identifier in lower case and after zeros, neither of which an answer repeats.
    pub fn as_in_a_trace(self, zeros: usize) -> Words {
        let header = "0".repeat(zeros) + &self.header.to_lowercase();
        Words { header, ..self }
    }

    pub fn arriving(&self, acknowledged: bool) -> String {
        let acknowledged = if acknowledged { "ack" } else { "noack" };
        format!("frame {} {}{}", self.header, acknowledged, self.data)
    }
}

/// Says the same in another way: blanks, comments, empty lines before it.
pub fn decorate(random: &mut Random, line: &str) -> String {
    match random.below(60) {
        0 => line.replace(' ', "  \t"),
        1 => format!("\t{} \r", line),
        2 => format!("{}# spi 56", line),
        3 => format!("# mr\n\n{}", line),
        4 => format!("   \r\n{}", line),
        _ => line.to_string(),
    }
}

impl Drawer {
    /// Fields that don't fit each other, but for a few at the edge that do.
    pub fn impossible_frame(&mut self) -> Words {
        let frame = self.any_frame();
        let kind = if frame.extended { "ext" } else { "std" };
        let (code, data) = (frame.length_code, Words::of(&frame).data);
        let (header, data) = match self.random.below(7) {
            0 => {
                let limit = if frame.extended { 29 } else { 11 };
                let above = (1u64 << limit) + self.random.pick(&[0, 0, 1, 1 << 40]);
                (format!("{:x} {} data {}", above, kind, code), data)
            }
            1 => (format!("0 {} data {}", kind, code), data + " 00"),
            2 => (format!("0 {} remote {}", kind, code), " 00".to_string()),
            3 => {
                let data = &data[..data.len().saturating_sub(3)];
                let code = code.max(1);
                (format!("0 {} data {}", kind, code), data.to_string())
            }
            4 => {
                let code = self
                    .random
                    .pick(&["16", "17", "24", "256", "99999999999999999999"]);
                (format!("0 {} remote {}", kind, code), String::new())
            }
            5 => {
                let code = self.random.pick(&[16, 24, 264]);
                (format!("0 {} data {}", kind, code), EIGHT.to_string())
            }
            _ => {
                let id = self
                    .random
                    .pick(&["FFFFFFFFFFFFFFFFFF", "100000000", "0000000800"]);
                (format!("{} {} remote {}", id, kind, code), String::new())
            }
        };
        Words { header, data }
    }

    /// An impossible frame, or a time at which an event can't be.
    pub fn impossible_event(&mut self) {
        if self.random.chance(12) {
            self.say_any(&["begin", "done", "lost", "txerr bit counted"]);
        } else {
            let words = self.impossible_frame();
            self.say_frame(&words);
        }
        self.look_at_numbers(15);
    }

    /// As long as a line may be, or a few blanks longer.
    pub fn stretched(&mut self, line: &str) -> String {
        let blanks = LONGEST_LINE - line.len() + self.random.below(4);
        line.to_string() + &" ".repeat(blanks)
    }

    pub fn unreadable_line(&mut self) -> &'static str {
        let lines = UNREADABLE.split('|').chain(NEARLY_NUMBERS);
        let lines: Vec<&str> = lines.collect();
        self.random.pick(&lines)
    }

    pub fn anything(&mut self) {
        match self.random.below(14) {
            0 if self.random.chance(5) => {
                let line = self.stretched("spi D2");
                self.say(&line);
            }
            0 => {
                let line = self.unreadable_line();
                self.say(line);
            }
            1 => self.say("spi"),
            2 => self.say_error("rxerr", ""),
            3 => self.say_error("txerr", " counted"),
            4 => self.say_error("txerr", " exempt"),
            5 => self.pass_time(),
            6 => {
                let code = self
                    .random
                    .pick(&[0xDC, 0xDE, 0xEE, 0x46, 0x48, 0x52, 0x54, 0x5A]);
                self.spi(&[code]);
            }
            7 => {
                let code = self.random.pick(&[0x16, 0x1C, 0x1E, 0x22, 0x24, 0x26]);
                let value = self.random.byte();
                self.spi(&[code, value]);
            }
            8 => self.malformed_transfers(),
            9 => self.load_one(),
            _ => {
                let line = self.random.pick(&PLAIN);
                self.say(line);
            }
        }
    }
}
