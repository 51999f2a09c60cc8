//! Why a call is refused.

use crate::sys;
use std::ffi::c_int;
use std::fmt::{self, Display, Formatter};

/// What is wrong with a parameter word.
#[derive(Clone, Copy, Debug, PartialEq, Eq, Hash)]
pub enum WordFault {
    /// The word names no parameter, or no way to classify.
    UnknownWord,
    /// The parameter has no value.
    MissingValue,
    /// The value is not a number or a time.
    NotANumber,
    /// The value is out of range.
    OutOfRange,
}

/// Why a call is refused. Nothing has changed then.
#[derive(Clone, Copy, Debug, PartialEq, Eq, Hash)]
pub enum Error {
    /// The time is 2^60 microseconds or more.
    TooLarge,
    /// The time is before that of the last call.
    Backwards,
    /// The scheduler is closed.
    Closed,
    /// Out of packet ids: the scheduler was never empty while 2^39 packets came.
    Exhausted,
    /// Out of memory.
    Memory,
    /// A packet has 0 bytes or more than 65,535, or addresses of two versions of IP.
    BadPacket,
    /// A parameter is wrong. In the text of the words the wrong word is `words[offset..offset + len]`.
    BadWords {
        /// The place of the word, from 1.
        place: u64,
        /// Where the word begins in the text, in bytes.
        offset: usize,
        /// How many bytes the word has.
        len: usize,
        /// What is wrong with it.
        fault: WordFault,
    },
    /// Drops of earlier calls weren't read: see [`Scheduler::drops`](crate::Scheduler::drops).
    Unread,
    /// There is no flow of that number.
    BadFlow,
    /// The scheduler finds the flow by a hash of the five-tuple. To choose flows, open it with the words
    /// `classify dport`.
    Hashed,
}

impl Error {
    /// The error that an answer of C names. The answers that the types of this crate rule out are none.
    pub(crate) fn of(answer: c_int) -> Error {
        match answer {
            -2 => Error::TooLarge,
            -3 => Error::Backwards,
            -4 => Error::Closed,
            -5 => Error::Exhausted,
            -6 => Error::Memory,
            -7 => Error::BadPacket,
            -9 => Error::Unread,
            -12 => Error::BadFlow,
            -13 => Error::Hashed,
            _ => unreachable!("the library answered {answer}"),
        }
    }

    /// The error of a word. A text of Rust is UTF-8, so no other kind comes.
    pub(crate) fn of_word(told: &sys::Fault) -> Error {
        let fault = match told.kind {
            1 => WordFault::UnknownWord,
            2 => WordFault::MissingValue,
            3 => WordFault::NotANumber,
            4 => WordFault::OutOfRange,
            kind => unreachable!("the library named the fault {kind}"),
        };
        Error::BadWords {
            place: told.place,
            offset: told.offset as usize,
            len: told.len as usize,
            fault,
        }
    }
}

impl Display for WordFault {
    fn fmt(&self, f: &mut Formatter<'_>) -> fmt::Result {
        f.write_str(match self {
            WordFault::UnknownWord => "no parameter has that name",
            WordFault::MissingValue => "the parameter has no value",
            WordFault::NotANumber => "the value is not a number or a time",
            WordFault::OutOfRange => "the value is out of range",
        })
    }
}

impl Display for Error {
    fn fmt(&self, f: &mut Formatter<'_>) -> fmt::Result {
        f.write_str(match self {
            Error::TooLarge => "the time is 2^60 microseconds or more",
            Error::Backwards => "the time is before that of the last call",
            Error::Closed => "the scheduler is closed",
            Error::Exhausted => "out of packet ids",
            Error::Memory => "out of memory",
            Error::BadPacket => {
                "the packet has 0 bytes or more than 65535, or addresses of two versions of IP"
            }
            Error::BadWords { place, fault, .. } => {
                return write!(f, "parameter word {place}: {fault}")
            }
            Error::Unread => "drops of earlier calls were not read",
            Error::BadFlow => "there is no flow of that number",
            Error::Hashed => {
                "the scheduler finds the flow by a hash of the five-tuple: \
                 open it with the words classify dport to choose the flow"
            }
        })
    }
}

impl std::error::Error for Error {}
