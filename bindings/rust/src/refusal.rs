//! Why a call was refused, and what the registry replies.

use std::error::Error;
use std::fmt;

/// Why a call was refused.
#[derive(Clone, Copy, Debug, PartialEq, Eq)]
pub enum Refusal {
    OutOfMemory,
    /// The host said that a write couldn't be made, or the library had no memory for one. The node is down: open it again.
    Device,
    /// The areas hold no facts, or they are empty and the node isn't new, or the other way round.
    Damaged,
    Failed,
    /// The node is down, or opens still.
    Down,
    BadNodes,
    BadName,
    BadValue,
    /// All places of the list are taken.
    ListFull,
    RoundsOut,
    /// Bytes that are no message among these nodes.
    Malformed,
    /// No write is due.
    StrangeMark,
    Busy,
    TooLarge,
    /// A number that this crate doesn't know.
    Other(u32),
}

impl Refusal {
    pub(crate) fn of(number: u32) -> Result<(), Refusal> {
        Err(match number {
            0 => return Ok(()),
            1 => Refusal::OutOfMemory,
            2 => Refusal::Device,
            3 => Refusal::Damaged,
            4 => Refusal::Failed,
            5 => Refusal::Down,
            6 => Refusal::BadNodes,
            7 => Refusal::BadName,
            8 => Refusal::BadValue,
            9 => Refusal::ListFull,
            10 => Refusal::RoundsOut,
            11 => Refusal::Malformed,
            12 => Refusal::StrangeMark,
            13 => Refusal::Busy,
            16 => Refusal::TooLarge,
            other => Refusal::Other(other),
        })
    }
}

impl fmt::Display for Refusal {
    fn fmt(&self, f: &mut fmt::Formatter<'_>) -> fmt::Result {
        write!(f, "refused: {self:?}")
    }
}

impl Error for Refusal {}

/// The registry's reply to a command.
#[derive(Clone, Copy, Debug, PartialEq, Eq)]
pub enum Reply {
    Claimed,
    Updated,
    Released,
    Transferred,
    /// This client has the name already.
    Taken(u32),
    /// The name is free.
    Unknown,
    NotOwner,
    /// 4,096 names are bound.
    Full,
}

impl Reply {
    pub(crate) fn of(number: u32, owner: u32) -> Option<Reply> {
        Some(match number {
            1 => Reply::Claimed,
            2 => Reply::Updated,
            3 => Reply::Released,
            4 => Reply::Transferred,
            5 => Reply::Taken(owner),
            6 => Reply::Unknown,
            7 => Reply::NotOwner,
            8 => Reply::Full,
            _ => return None,
        })
    }
}
