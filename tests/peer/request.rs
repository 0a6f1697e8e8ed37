//! From the words of one line to a request, or to the word that could not be read.

use crate::bus::{Event, ToldFrame};

pub enum Request {
    Transfer { bytes: Vec<u8>, reply_room: usize },
    Event(Event),
    Hits(ToldFrame),
    Numbers,
    Pins,
}

/// Names what could not be found.
pub type Expected = &'static str;

pub struct Unreadable<'a> {
    pub expected: Expected,
    /// What stands in its place; empty where the line ends.
    pub word: &'a [u8],
}

type Read<'a, T> = Result<T, Unreadable<'a>>;

/// A reply buffer has at most this many bytes.
pub const REPLY_BUFFER: usize = 16;

const REQUEST: Expected = "a request: spi, frame, an event, hits, numbers or pins";
const ROOM: Expected = "spi, or spi/ and a buffer size from 0 to 16";
const END: Expected = "nothing more on this line";

/// ERR's bits 4 to 0.
const KINDS: [(&[u8], u8); 5] = [
    (b"stuff", 0x01),
    (b"ack", 0x02),
    (b"crc", 0x04),
    (b"form", 0x08),
    (b"bit", 0x10),
];

type Words<'a, 'b> = std::slice::Iter<'b, &'a [u8]>;

/// An empty word where the line ends.
fn next<'a>(rest: &mut Words<'a, '_>) -> &'a [u8] {
    rest.next().copied().unwrap_or(b"")
}

pub fn read<'a>(words: &[&'a [u8]]) -> Read<'a, Request> {
    let mut rest = words.iter();
    let first = next(&mut rest);
    let request = match first {
        b"pins" => Request::Pins,
        b"numbers" => Request::Numbers,
        b"frame" => Request::Event(good_frame(&mut rest)?),
        b"hits" => Request::Hits(hits(&mut rest)?),
        _ if first.starts_with(b"spi") => {
            let reply_room = found(buffer_size(&first[3..]), ROOM, first)?;
            let bytes = bytes(&mut rest)?;
            Request::Transfer { bytes, reply_room }
        }
        _ => Request::Event(event(first, &mut rest)?),
    };
    match next(&mut rest) {
        b"" => Ok(request),
        word => found(None, END, word),
    }
}

fn found<T>(value: Option<T>, expected: Expected, word: &[u8]) -> Read<'_, T> {
    value.ok_or(Unreadable { expected, word })
}

fn event<'a>(name: &'a [u8], rest: &mut Words<'a, '_>) -> Read<'a, Event> {
    Ok(match name {
        b"rxerr" => Event::ReceiveError(kind(rest)?),
        b"txerr" => Event::TransmitError {
            kind: kind(rest)?,
            counted: either(rest, b"exempt", b"counted", "counted or exempt")?,
        },
        b"dominant" => Event::DominantAfterFlag,
        b"begin" => Event::Begun,
        b"done" => Event::Completed,
        b"lost" => Event::ArbitrationLost,
        b"recessive" => Event::ElevenRecessive,
        b"quiet" => Event::Quiet,
        b"activity" => Event::Activity,
        b"mr" => Event::MrPin,
        b"ticks" => Event::Ticks(ticks(rest)?),
        b"txen" => Event::TxenPin(either(rest, b"0", b"1", "0 or 1")?),
        _ => return found(None, REQUEST, name),
    })
}

fn good_frame<'a>(rest: &mut Words<'a, '_>) -> Read<'a, Event> {
    let mut told = header(rest)?;
    let acknowledged = either(rest, b"noack", b"ack", "ack or noack")?;
    told.data = bytes(rest)?;
    Ok(Event::GoodFrame { told, acknowledged })
}

fn hits<'a>(rest: &mut Words<'a, '_>) -> Read<'a, ToldFrame> {
    let mut told = header(rest)?;
    told.data = bytes(rest)?;
    Ok(told)
}

/// A frame's words without its data, since a good frame has another word before that.
fn header<'a>(rest: &mut Words<'a, '_>) -> Read<'a, ToldFrame> {
    Ok(ToldFrame {
        identifier: number(rest, 16, "an identifier in hex")?,
        extended: either(rest, b"std", b"ext", "std or ext")?,
        remote: either(rest, b"data", b"remote", "data or remote")?,
        length_code: number(rest, 10, "a length code in decimal")?,
        data: Vec::new(),
    })
}

/// True for the second of two words.
fn either<'a>(
    rest: &mut Words<'a, '_>,
    no: &[u8],
    yes: &[u8],
    expected: Expected,
) -> Read<'a, bool> {
    let word = next(rest);
    let place = [no, yes].iter().position(|&known| known == word);
    found(place.map(|place| place == 1), expected, word)
}

fn kind<'a>(rest: &mut Words<'a, '_>) -> Read<'a, u8> {
    let word = next(rest);
    let named = KINDS.iter().find(|(name, _)| *name == word);
    found(
        named.map(|&(_, bit)| bit),
        "stuff, ack, crc, form or bit",
        word,
    )
}

/// One digit or more.
fn digits(word: &[u8], radix: u32) -> Option<Vec<u32>> {
    let digits = word.iter().map(|&c| char::from(c).to_digit(radix));
    let digits: Option<Vec<u32>> = digits.collect();
    digits.filter(|digits| !digits.is_empty())
}

fn byte(word: &[u8]) -> Option<u8> {
    match digits(word, 16)?[..] {
        [high, low] => Some((high << 4 | low) as u8),
        _ => None,
    }
}

fn bytes<'a>(rest: &mut Words<'a, '_>) -> Read<'a, Vec<u8>> {
    rest.map(|word| found(byte(word), "a byte of two hex digits", word))
        .collect()
}

/// A number of any size; what is too large for 32 bits stays too large for every field.
fn value(word: &[u8], radix: u32) -> Option<u32> {
    let append = |value: u32, d: u32| value.saturating_mul(radix).saturating_add(d);
    Some(digits(word, radix)?.into_iter().fold(0, append))
}

fn number<'a>(rest: &mut Words<'a, '_>, radix: u32, expected: Expected) -> Read<'a, u32> {
    let word = next(rest);
    found(value(word, radix), expected, word)
}

/// Of what follows `spi`.
fn buffer_size(word: &[u8]) -> Option<usize> {
    match word {
        b"" => Some(REPLY_BUFFER),
        _ => {
            let size = value(word.strip_prefix(b"/")?, 10)? as usize;
            Some(size).filter(|&size| size <= REPLY_BUFFER)
        }
    }
}

/// The time tag wraps, so the remainder of a count of any length is all that is needed.
fn ticks<'a>(rest: &mut Words<'a, '_>) -> Read<'a, u16> {
    let word = next(rest);
    let append = |value: u16, d: u32| value.wrapping_mul(10).wrapping_add(d as u16);
    let count = digits(word, 10).map(|digits| digits.into_iter().fold(0, append));
    found(count, "a number of ticks in decimal", word)
}
