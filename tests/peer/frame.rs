//! Frames, and their bytes as 000's Tables 2, 4 and 5 lay them out.

use std::fmt;

#[derive(Clone)]
pub struct Frame {
    /// 11 bits (ID28 to ID18) or, when extended, 29 bits (ID28 to ID0).
    pub identifier: u32,
    pub extended: bool,
    pub remote: bool,
    /// DLC as it came; codes 9 to 15 are kept though they mean eight bytes.
    pub length_code: u8,
    pub data: Vec<u8>,
}

/// A frame's identifier and kind, as lines write them.
#[derive(Clone, Copy)]
pub struct Name {
    identifier: u32,
    extended: bool,
}

/// A message to send: Table 2.
#[derive(Clone)]
pub struct Message {
    pub tag: u8,
    pub frame: Frame,
}

/// A message received: Table 5. What byte 1 says of it is fixed when it is stored.
#[derive(Clone)]
pub struct Received {
    pub frame: Frame,
    pub time_tag: u16,
    /// As MESSTAT shows it; byte 1 has its lower three bits.
    pub filhit: u8,
    /// Its arrival number, which no byte shows.
    pub number: u64,
}

pub fn data_bytes(length_code: u8, remote: bool) -> usize {
    if remote {
        0
    } else {
        usize::from(length_code.min(8))
    }
}

impl fmt::Display for Name {
    fn fmt(&self, f: &mut fmt::Formatter) -> fmt::Result {
        let kind = if self.extended { "ext" } else { "std" };
        write!(f, "{:X} {}", self.identifier, kind)
    }
}

impl Frame {
    pub fn name(&self) -> Name {
        Name {
            identifier: self.identifier,
            extended: self.extended,
        }
    }

    /// The identifier at its 29-bit places, so that ID28 is bit 28 for both kinds.
    fn aligned(&self) -> u32 {
        if self.extended {
            self.identifier
        } else {
            self.identifier << 18
        }
    }

    /// Table 4a: what filters look at. RTR stands where a message shows SRR.
    pub fn filter_bytes(&self) -> [u8; 6] {
        let id = self.aligned();
        let flags = u8::from(self.remote) << 4 | u8::from(self.extended) << 3;
        let data = |n: usize| self.data.get(n).copied().unwrap_or(0);
        [
            (id >> 21) as u8,
            (id >> 13) as u8 & 0xE0 | flags | (id >> 15) as u8 & 0x07,
            (id >> 7) as u8,
            (id << 1) as u8,
            data(0),
            data(1),
        ]
    }
}

impl Message {
    /// From the bytes after 0x12, or nothing when their number fits no message.
    pub fn from_table_2(field: &[u8]) -> Option<Message> {
        let extended = field.get(2)? & 0x08 != 0;
        let header = if extended { 6 } else { 4 };
        if field.len() < header || field.len() > header + 8 {
            return None;
        }
        let high = u32::from(field[1]) << 3 | u32::from(field[2]) >> 5;
        let (identifier, remote) = if extended {
            let low =
                u32::from(field[2] & 7) << 15 | u32::from(field[3]) << 7 | u32::from(field[4]) >> 1;
            (high << 18 | low, field[4] & 0x01 != 0)
        } else {
            (high, field[2] & 0x10 != 0)
        };
        let length_code = field[header - 1] & 0x0F;
        let data = field.get(header..header + data_bytes(length_code, remote))?;
        Some(Message {
            tag: field[0],
            frame: Frame {
                identifier,
                extended,
                remote,
                length_code,
                data: data.to_vec(),
            },
        })
    }
}

impl Received {
    /// Byte n of Table 5 is at place n - 1.
    pub fn table_5(&self) -> [u8; 16] {
        let frame = &self.frame;
        let id = frame.aligned();
        let mut bytes = [0; 16];
        bytes[0] = u8::from(frame.extended) << 7 | self.filhit & 0x07;
        bytes[1..3].copy_from_slice(&self.time_tag.to_be_bytes());
        bytes[3] = (id >> 21) as u8;
        bytes[4] = (id >> 13) as u8 & 0xE0 | (id >> 15) as u8 & 0x07;
        if frame.extended {
            // SRR and IDE.
            bytes[4] |= 0x18;
        }
        bytes[5] = (id >> 7) as u8;
        bytes[6] = (id << 1) as u8 | u8::from(frame.remote);
        bytes[7] = frame.length_code;
        bytes[8..8 + frame.data.len()].copy_from_slice(&frame.data);
        bytes
    }
}
