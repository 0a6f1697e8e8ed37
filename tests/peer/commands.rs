//! Datasheet 000's Table 1 as data. The factory commands 0x4E, 0xF4 and 0xF6 are left out: they
//! are answered like a byte that is no command.

#[derive(Clone, Copy)]
pub enum Readable {
    Ctrl0,
    Ctrl1,
    Btr0,
    Btr1,
    Messtat,
    Err,
    Intf,
    Statf,
    Inte,
    Statfe,
    Gpine,
    Rec,
    Tec,
    BusOffRecessiveCount,
}

#[derive(Clone, Copy)]
pub enum Writable {
    Ctrl0,
    Ctrl1,
    Btr0,
    Btr1,
    Inte,
    Statfe,
    Gpine,
    Rec,
    Tec,
}

/// Stretches of Table 5, by its own byte numbers, first and last.
pub type Stretches = &'static [(usize, usize)];

#[derive(Clone, Copy)]
pub enum Job {
    ReadTemporary(Stretches),
    ReadNextMessage(Stretches),
    ReadFilter(usize),
    ReadMask(usize),
    Read(Readable),
    ReadHistory,
    ReadTimeTag,
    AbortTransmission,
    ResetTransmitFifo,
    MasterReset,
    ResetTimeTag,
    ResetReceiveFifo,
    WriteMessage,
    Write(Writable),
    WriteFilter(usize),
    WriteMask(usize),
}

/// Command byte, number of bytes after it, number of bytes that come back, and what is done.
/// 0x12 has no fixed number of bytes after it: the message tells its length.
pub type Command = (u8, Option<usize>, usize, Job);

use Job::*;

pub const TABLE_1: &[Command] = &[
    (0x42, Some(0), 15, ReadTemporary(&[(2, 16)])),
    (0x44, Some(0), 13, ReadTemporary(&[(4, 16)])),
    (0x46, Some(0), 16, ReadNextMessage(&[(1, 16)])),
    (0x48, Some(0), 14, ReadNextMessage(&[(1, 1), (4, 16)])),
    (0x4A, Some(0), 11, ReadNextMessage(&[(1, 3), (9, 16)])),
    (0x4C, Some(0), 9, ReadNextMessage(&[(1, 1), (9, 16)])),
    (0xA2, Some(0), 6, ReadFilter(0)),
    (0xA4, Some(0), 6, ReadFilter(1)),
    (0xA6, Some(0), 6, ReadFilter(2)),
    (0xA8, Some(0), 6, ReadFilter(3)),
    (0xAA, Some(0), 6, ReadFilter(4)),
    (0xAC, Some(0), 6, ReadFilter(5)),
    (0xAE, Some(0), 6, ReadFilter(6)),
    (0xB2, Some(0), 6, ReadFilter(7)),
    (0xB4, Some(0), 6, ReadMask(0)),
    (0xB6, Some(0), 6, ReadMask(1)),
    (0xB8, Some(0), 6, ReadMask(2)),
    (0xBA, Some(0), 6, ReadMask(3)),
    (0xBC, Some(0), 6, ReadMask(4)),
    (0xBE, Some(0), 6, ReadMask(5)),
    (0xC2, Some(0), 6, ReadMask(6)),
    (0xC4, Some(0), 6, ReadMask(7)),
    (0xD2, Some(0), 1, Read(Readable::Ctrl0)),
    (0xD4, Some(0), 1, Read(Readable::Ctrl1)),
    (0xD6, Some(0), 1, Read(Readable::Btr0)),
    (0xD8, Some(0), 1, Read(Readable::Btr1)),
    (0xDA, Some(0), 1, Read(Readable::Messtat)),
    (0xDC, Some(0), 1, Read(Readable::Err)),
    (0xDE, Some(0), 1, Read(Readable::Intf)),
    (0xE2, Some(0), 1, Read(Readable::Statf)),
    (0xE4, Some(0), 1, Read(Readable::Inte)),
    (0xE6, Some(0), 1, Read(Readable::Statfe)),
    (0xE8, Some(0), 1, Read(Readable::Gpine)),
    (0xEA, Some(0), 1, Read(Readable::Rec)),
    (0xEC, Some(0), 1, Read(Readable::Tec)),
    (0xEE, Some(0), 3, ReadHistory),
    (0xF8, Some(0), 1, Read(Readable::BusOffRecessiveCount)),
    (0xFA, Some(0), 2, ReadTimeTag),
    (0x52, Some(0), 0, AbortTransmission),
    (0x54, Some(0), 0, ResetTransmitFifo),
    (0x56, Some(0), 0, MasterReset),
    (0x58, Some(0), 0, ResetTimeTag),
    (0x5A, Some(0), 0, ResetReceiveFifo),
    (0x12, None, 0, WriteMessage),
    (0x14, Some(1), 0, Write(Writable::Ctrl0)),
    (0x16, Some(1), 0, Write(Writable::Ctrl1)),
    (0x18, Some(1), 0, Write(Writable::Btr0)),
    (0x1A, Some(1), 0, Write(Writable::Btr1)),
    (0x1C, Some(1), 0, Write(Writable::Inte)),
    (0x1E, Some(1), 0, Write(Writable::Statfe)),
    (0x22, Some(1), 0, Write(Writable::Gpine)),
    (0x24, Some(1), 0, Write(Writable::Rec)),
    (0x26, Some(1), 0, Write(Writable::Tec)),
    (0x62, Some(6), 0, WriteFilter(0)),
    (0x64, Some(6), 0, WriteFilter(1)),
    (0x66, Some(6), 0, WriteFilter(2)),
    (0x68, Some(6), 0, WriteFilter(3)),
    (0x6A, Some(6), 0, WriteFilter(4)),
    (0x6C, Some(6), 0, WriteFilter(5)),
    (0x6E, Some(6), 0, WriteFilter(6)),
    (0x72, Some(6), 0, WriteFilter(7)),
    (0x74, Some(6), 0, WriteMask(0)),
    (0x76, Some(6), 0, WriteMask(1)),
    (0x78, Some(6), 0, WriteMask(2)),
    (0x7A, Some(6), 0, WriteMask(3)),
    (0x7C, Some(6), 0, WriteMask(4)),
    (0x7E, Some(6), 0, WriteMask(5)),
    (0x82, Some(6), 0, WriteMask(6)),
    (0x84, Some(6), 0, WriteMask(7)),
];
