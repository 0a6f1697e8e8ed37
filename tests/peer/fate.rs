//! What became of a frame that arrived.

use crate::frame::Name;
use std::fmt;

/// Reads as `face` tells it.
#[derive(Clone, Copy)]
pub enum Fate {
    A1,
    A2,
    A3,
    A4,
    Queued,
    /// It took the place of the latest of eight that waited, which was lost.
    QueuedOver(Name),
}

impl Fate {
    /// With this `why` begins.
    pub fn word(self) -> &'static str {
        match self {
            Fate::A1 => "A1",
            Fate::A2 => "A2",
            Fate::A3 => "A3",
            Fate::A4 => "A4",
            Fate::Queued => "Queued",
            Fate::QueuedOver(_) => "Queued-over",
        }
    }
}

impl fmt::Display for Fate {
    fn fmt(&self, f: &mut fmt::Formatter) -> fmt::Result {
        f.write_str(self.word())?;
        match self {
            Fate::QueuedOver(lost) => write!(f, " {}", lost),
            _ => Ok(()),
        }
    }
}
