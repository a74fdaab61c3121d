//! Why a call has no result.

use crate::ffi::{self, zonenorm_answer};
use std::fmt;

/// Why a call has no result.
#[derive(Clone, Debug, PartialEq, Eq)]
#[non_exhaustive]
pub enum Error {
    /// The origin is no absolute name in presentation format, with its final dot.
    BadOrigin,
    /// The input denotes no zone.
    Refused(Refusal),
    /// An allocation failed.
    NoMemory,
    /// The library doesn't have this kind of input or this algorithm.
    Unsupported,
    /// A status that this crate doesn't know.
    Unknown(u32),
}

/// The fault for which an input is refused.
#[derive(Clone, Debug, PartialEq, Eq)]
pub struct Refusal {
    /// The line that the programs print. Empty if there was no memory for it.
    pub text: String,
    /// The number of the fault, as 41 for F41; 0 if an entry states no data of its type.
    pub fault: u32,
    /// Where it is.
    pub place: Place,
    /// The input that has it, 1 or 2, of a call on two.
    pub which: Option<u32>,
}

/// The place of a fault.
#[derive(Clone, Copy, Debug, PartialEq, Eq)]
pub enum Place {
    /// The input as a whole.
    Whole,
    /// A line of a master file, from 1.
    Line(u64),
    /// A message of a transfer, from 1, and an offset in it.
    Message(u64, u64),
}

impl Error {
    /// The error that an answer states, if it has no result.
    pub(crate) fn of(answer: &zonenorm_answer, text: &[u8]) -> Option<Error> {
        match answer.status {
            ffi::OK | ffi::DIFFERENT => None,
            ffi::BAD_ORIGIN => Some(Error::BadOrigin),
            ffi::REFUSED => Some(Error::Refused(Refusal::of(answer, text))),
            ffi::NO_MEMORY => Some(Error::NoMemory),
            ffi::UNSUPPORTED => Some(Error::Unsupported),
            status => Some(Error::Unknown(status)),
        }
    }
}

impl Refusal {
    fn of(answer: &zonenorm_answer, text: &[u8]) -> Refusal {
        let place = match answer.place {
            ffi::LINE => Place::Line(answer.line),
            ffi::MESSAGE => Place::Message(answer.line, answer.offset),
            _ => Place::Whole,
        };
        Refusal {
            text: String::from_utf8_lossy(text).into_owned(),
            fault: answer.fault,
            place,
            which: Some(answer.input).filter(|&it| it != 0),
        }
    }
}

impl fmt::Display for Error {
    fn fmt(&self, f: &mut fmt::Formatter<'_>) -> fmt::Result {
        match self {
            Error::BadOrigin => f.write_str("the origin is no absolute name"),
            Error::Refused(refusal) if refusal.text.is_empty() => write!(f, "F{}", refusal.fault),
            Error::Refused(refusal) => f.write_str(&refusal.text),
            Error::NoMemory => f.write_str("out of memory"),
            Error::Unsupported => f.write_str("the library doesn't have this kind or algorithm"),
            Error::Unknown(status) => write!(f, "the library answered status {status}"),
        }
    }
}

impl std::error::Error for Error {}
