//! The model of `why`: all lines are done in silence but the last, a frame, which is explained.

use crate::bus::{Event, ToldFrame};
use crate::device::{Device, Mode, CTRL0_WAKEUP};
use crate::fate::Fate;
use crate::frame::Frame;
use crate::host::Refusal;
use crate::request::Request;
use crate::said::{Model, Said};
use crate::script::{answer, Line, Lines};
use std::iter;

/// 000's Table 4a, each byte from bit 7 down. The last bit of byte 4 has no name, there and in 4b,
/// and does not count.
const TABLE_4A: [[&str; 8]; 6] = [
    [
        "ID28", "ID27", "ID26", "ID25", "ID24", "ID23", "ID22", "ID21",
    ],
    ["ID20", "ID19", "ID18", "RTR", "IDE", "ID17", "ID16", "ID15"],
    ["ID14", "ID13", "ID12", "ID11", "ID10", "ID9", "ID8", "ID7"],
    ["ID6", "ID5", "ID4", "ID3", "ID2", "ID1", "ID0", ""],
    ["data byte 1"; 8],
    ["data byte 2"; 8],
];

pub struct Why {
    pub device: Device,
    lines: Lines,
    /// The latest line, until another one shows that it is not the last.
    held: Option<Line>,
}

fn no_frame(line: u64, read: &str) -> Said {
    Said::exactly(format!(
        "line {}: expected a frame as the last line, as frame 123 std data 2 ack AA 55, read {}",
        line, read
    ))
}

fn explained(word: &str) -> Said {
    Said::freely(
        format!("{}: ", word),
        "so it would be answered",
        String::new(),
    )
}

/// Where a filter first asks for something else than it sees; nothing where it matches.
fn first_difference(filter: [u8; 6], mask: [u8; 6], seen: [u8; 6]) -> Option<String> {
    for (byte, names) in TABLE_4A.iter().enumerate() {
        for (bit, name) in (0..8).rev().zip(names) {
            let at = |bytes: [u8; 6]| bytes[byte] >> bit & 1;
            let (asked, had) = (at(filter), at(seen));
            if !name.is_empty() && at(mask) == 1 && asked != had {
                return Some(format!(
                    "byte {} bit {} ({}: the filter asks for {}, the frame has {})",
                    byte + 1,
                    bit,
                    name,
                    asked,
                    had
                ));
            }
        }
    }
    None
}

impl Why {
    pub fn fresh() -> Why {
        Why {
            device: Device::fresh(),
            lines: Lines::new(),
            held: None,
        }
    }

    /// The line before this one is not the last, so it is done, and told if that fails.
    fn go_on(&mut self, line: Line) -> Option<Said> {
        let Line { number, read } = self.held.replace(line)?;
        match read {
            Ok(request) => {
                let refusal = answer(&mut self.device, request).err()?;
                let start = format!("line {}: {}: ", number, refusal);
                Some(Said::freely(start, "refused", String::new()))
            }
            Err(unreadable) => Some(unreadable),
        }
    }

    /// What helps against A1 goes by the mode, so that its words have to tell which it is.
    fn mode(&self) -> &'static str {
        match self.device.acting {
            Mode::Sleep if self.device.ctrl0 & CTRL0_WAKEUP != 0 => "wakes",
            Mode::Sleep => "sleep",
            Mode::Loopback => "loopback",
            _ => "initialization",
        }
    }

    fn explain(&mut self, told: ToldFrame, acknowledged: bool) -> Vec<Said> {
        let frame = told.possible();
        let said = frame.and_then(|frame| self.explain_possible(frame, acknowledged));
        said.unwrap_or_else(|number| vec![explained(&number.to_string())])
    }

    /// Nobody asks the device after this, so that the event may as well be done to it.
    fn explain_possible(&mut self, frame: Frame, acknowledged: bool) -> Result<Vec<Said>, Refusal> {
        let seen = frame.filter_bytes();
        let mode = self.mode();
        let fate = self.device.good_frame(frame, acknowledged)?;
        let answer = explained(fate.word());
        Ok(match fate {
            Fate::A1 => vec![answer.with(mode.to_string())],
            Fate::A4 => iter::once(answer).chain(self.differences(seen)).collect(),
            Fate::QueuedOver(lost) => vec![answer.with(format!("lost: {}", lost))],
            _ => vec![answer],
        })
    }

    /// Of each filter, where none matches.
    fn differences(&self, seen: [u8; 6]) -> impl Iterator<Item = Said> + '_ {
        (0..8).map(move |n| {
            let (filter, mask) = (self.device.filters[n], self.device.masks[n]);
            let place = first_difference(filter, mask, seen).expect("none matches under A4");
            Said::exactly(format!("filter {}: {}", n, place))
        })
    }
}

impl Model for Why {
    fn byte(&mut self, byte: u8) -> Option<Said> {
        let line = self.lines.byte(byte)?;
        self.go_on(line)
    }

    fn end(&mut self) -> Vec<Said> {
        let mut said = Vec::new();
        if let Some(line) = self.lines.end_of_line() {
            said.extend(self.go_on(line));
        }
        match self.held.take() {
            None => said.push(no_frame(self.lines.number(), "the end of the script")),
            Some(Line {
                read: Ok(Request::Event(Event::GoodFrame { told, acknowledged })),
                ..
            }) => said.extend(self.explain(told, acknowledged)),
            Some(Line {
                number,
                read: Ok(_),
            }) => said.push(no_frame(number, "another request")),
            Some(Line {
                number,
                read: Err(unreadable),
            }) => {
                said.extend([unreadable, no_frame(number, "a line that can't be read")]);
            }
        }
        said
    }
}
