//! What a call refuses.

use std::fmt;

/// What a call refuses. A line says why, as the program prints it.
#[derive(Clone, Debug, PartialEq, Eq)]
pub enum Error {
    NoMemory,
    Closed,
    NoRoom,
    /// The profile or its certificate is refused.
    Refused(String),
    /// Octets and their count of bits don't fit each other.
    BadBits,
    /// The header is above 4,096 bits.
    HeaderLength(String),
    /// The octets are not those of the values of the asked fields.
    Asked(String),
    /// No format has the item.
    NoFormat(String),
    /// The bits ran out.
    Truncated(String),
    /// No packet begins these bits.
    RefusedPacket(String),
    /// There is no such flow, asked field or count of flows.
    NoSuch,
    /// No format serves in all contexts that a receiver may hold.
    NoReach(String),
    /// A receiver might hold too many contexts.
    Contexts(String),
    /// An answer that rohcfn_c.h doesn't name.
    Unknown(i32),
}

impl Error {
    /// The error of an answer; `None` where the call was done.
    pub(crate) fn of(answer: i32, line: impl FnOnce() -> String) -> Option<Error> {
        Some(match answer {
            0 => return None,
            1 => Error::NoMemory,
            2 => Error::Closed,
            3 => Error::NoRoom,
            4 => Error::Refused(line()),
            5 => Error::BadBits,
            6 => Error::HeaderLength(line()),
            7 => Error::Asked(line()),
            8 => Error::NoFormat(line()),
            9 => Error::Truncated(line()),
            10 => Error::RefusedPacket(line()),
            11 => Error::NoSuch,
            12 => Error::NoReach(line()),
            13 => Error::Contexts(line()),
            other => Error::Unknown(other),
        })
    }
}

impl fmt::Display for Error {
    fn fmt(&self, f: &mut fmt::Formatter<'_>) -> fmt::Result {
        match self {
            Error::NoMemory => f.write_str("out of memory"),
            Error::Closed => f.write_str("the session is closed"),
            Error::NoRoom => f.write_str("a buffer is too short"),
            Error::BadBits => f.write_str("octets and their count of bits don't fit each other"),
            Error::NoSuch => f.write_str("no such flow, asked field or count of flows"),
            Error::Unknown(answer) => write!(f, "unknown answer {answer}"),
            Error::Refused(line)
            | Error::HeaderLength(line)
            | Error::Asked(line)
            | Error::NoFormat(line)
            | Error::Truncated(line)
            | Error::RefusedPacket(line)
            | Error::NoReach(line)
            | Error::Contexts(line) => f.write_str(line),
        }
    }
}

impl std::error::Error for Error {}
