//! A script, byte by byte: its lines, and the model of `face`, which answers each.

use crate::device::Device;
use crate::host::Refusal;
use crate::request::{read, Expected, Request, Unreadable};
use crate::said::{Model, Said};

/// A longer line, counted from its first word up to any `#`, is not looked into.
pub const LONGEST_LINE: usize = 65536;

/// Of a longer word this many bytes are told.
const LONGEST_WORD: usize = 16;

/// Cuts a script into lines.
pub struct Lines {
    number: u64,
    /// The line so far, from its first word up to any `#`; one byte more than the longest is
    /// enough to tell.
    line: Vec<u8>,
    in_comment: bool,
}

/// A line that is neither blank nor a comment.
pub struct Line {
    pub number: u64,
    /// Else what is said of a line that can't be read.
    pub read: Result<Request, Said>,
}

fn blank(byte: u8) -> bool {
    matches!(byte, b' ' | b'\t' | b'\r')
}

/// A byte that shows as itself, or its number.
fn letter(byte: u8) -> String {
    if (0x21..=0x7E).contains(&byte) && !b"\"\\".contains(&byte) {
        char::from(byte).to_string()
    } else {
        format!("\\x{:02X}", byte)
    }
}

/// What was read, where it was something else that was expected.
fn told(word: &[u8]) -> String {
    if word.is_empty() {
        return "the end of the line".to_string();
    }
    let shown: String = word.iter().take(LONGEST_WORD).map(|&b| letter(b)).collect();
    let more = if word.len() > LONGEST_WORD { "..." } else { "" };
    format!("\"{}\"{}", shown, more)
}

/// How it is named what was expected is free.
fn unreadable(line: u64, expected: Expected, read: &str) -> Said {
    let start = format!("line {}: expected ", line);
    Said::freely(start, expected, format!(", read {}", read))
}

impl Lines {
    pub fn new() -> Lines {
        Lines {
            number: 1,
            line: Vec::new(),
            in_comment: false,
        }
    }

    /// Of the line in hand; every line counts, and each newline begins one.
    pub fn number(&self) -> u64 {
        self.number
    }

    /// The line, if this byte completes one that has something in it.
    pub fn byte(&mut self, byte: u8) -> Option<Line> {
        match byte {
            b'\n' => {
                let line = self.end_of_line();
                self.number += 1;
                return line;
            }
            b'#' => self.in_comment = true,
            _ if self.in_comment || self.line.is_empty() && blank(byte) => {}
            _ if self.line.len() > LONGEST_LINE => {}
            _ => self.line.push(byte),
        }
        None
    }

    /// Also for the end of the input, where the last line may lack its newline.
    pub fn end_of_line(&mut self) -> Option<Line> {
        let line = std::mem::take(&mut self.line);
        self.in_comment = false;
        if line.is_empty() {
            return None;
        }
        let number = self.number;
        let read = if line.len() > LONGEST_LINE {
            let expected = "a line of at most 65536 bytes";
            Err(unreadable(number, expected, "a longer one"))
        } else {
            let words = line.split(|&byte| blank(byte));
            let words: Vec<&[u8]> = words.filter(|word| !word.is_empty()).collect();
            read(&words)
                .map_err(|Unreadable { expected, word }| unreadable(number, expected, &told(word)))
        };
        Some(Line { number, read })
    }
}

/// The last one given, the temporary buffer's, and those of the messages that wait, oldest first.
fn numbers(device: &Device) -> String {
    let last = device.numbers_given;
    let temporary = device.temporary.as_ref().map_or(0, |latest| latest.number);
    let waiting = device.receive_fifo.iter();
    let waiting: Vec<String> = waiting.map(|message| message.number.to_string()).collect();
    let waiting = match waiting[..] {
        [] => "-".to_string(),
        _ => waiting.join(","),
    };
    format!("last={} temp={} waiting={}", last, temporary, waiting)
}

/// The text of an answer 0, or the number of a refusal.
pub fn answer(device: &mut Device, request: Request) -> Result<String, Refusal> {
    Ok(match request {
        Request::Transfer { bytes, reply_room } => {
            let reply = device.transfer(&bytes, reply_room)?;
            reply.iter().fold("0".to_string(), |mut text, byte| {
                text.push_str(&format!(" {:02X}", byte));
                text
            })
        }
        Request::Event(event) => match device.event(event)? {
            None => "0".to_string(),
            Some(fate) => format!("0 {}", fate),
        },
        Request::Hits(told) => {
            let hits = device.hits(&told.possible()?);
            format!("0 {:02X} {}", hits, hits.count_ones())
        }
        Request::Numbers => numbers(device),
        Request::Pins => {
            let [int, stat, gp1, gp2] = device.pins().map(u8::from);
            format!("int={} stat={} gp1={} gp2={}", int, stat, gp1, gp2)
        }
    })
}

/// One line for each request, as soon as it is complete.
pub struct Session {
    pub device: Device,
    lines: Lines,
}

impl Session {
    pub fn fresh() -> Session {
        Session {
            device: Device::fresh(),
            lines: Lines::new(),
        }
    }

    fn say(&mut self, line: Line) -> Said {
        match line.read {
            Ok(request) => {
                let answer = answer(&mut self.device, request);
                Said::exactly(answer.unwrap_or_else(|number| number.to_string()))
            }
            Err(unreadable) => unreadable.after("? "),
        }
    }
}

impl Model for Session {
    fn byte(&mut self, byte: u8) -> Option<Said> {
        let line = self.lines.byte(byte)?;
        Some(self.say(line))
    }

    fn end(&mut self) -> Vec<Said> {
        let line = self.lines.end_of_line();
        line.map(|line| self.say(line)).into_iter().collect()
    }
}
