use crate::{Errno, MOST_TENANTS};
use std::fmt;

/// Why something was not done. Whatever was refused has changed nothing of any tenant, except for the frames before it of a
/// [restore](crate::Tenant::restore).
#[derive(Debug, Clone, Copy, PartialEq, Eq)]
#[non_exhaustive]
pub enum Error {
    /// A host was asked for with no tenants, or with more than [`MOST_TENANTS`].
    Tenants {
        /// How many were asked for.
        asked: usize,
    },
    /// There is no memory for a host, or for a part of a save.
    NoMemory,
    /// The library that is linked is of another binary interface than this crate ([`library_version`](crate::library_version) has its
    /// version).
    Version,
    /// The bytes of a save end inside a frame, or have a frame of another tenant.
    BadFrames,
    /// There is room for fewer results than there are packets.
    Room {
        /// For how many results there is room.
        results: usize,
    },
    /// A command, or a run of many packets, returned an error number.
    Status(Errno),
    /// A program was refused.
    Refused {
        /// The status of the reply: EINVAL, EACCES, EBADF or E2BIG, by the reason.
        errno: Errno,
        /// The first slot at which a rule is broken, from 0.
        slot: u32,
        /// The rule: a number of docs/VERIFIER.md, or above 100 if the slots are no program.
        reason: u16,
    },
}

impl Error {
    /// Its error number, if it has one.
    pub fn errno(&self) -> Option<Errno> {
        match *self {
            Error::Status(errno) | Error::Refused { errno, .. } => Some(errno),
            Error::Tenants { .. } | Error::NoMemory | Error::Version | Error::BadFrames | Error::Room { .. } => None,
        }
    }
}

impl fmt::Display for Error {
    fn fmt(&self, f: &mut fmt::Formatter<'_>) -> fmt::Result {
        match *self {
            Error::Tenants { asked } => write!(f, "a host has 1 to {MOST_TENANTS} tenants, not {asked}"),
            Error::NoMemory => f.write_str("out of memory for the host"),
            Error::Version => f.write_str("the library is of another binary interface than this crate"),
            Error::BadFrames => f.write_str("the bytes are not whole frames of this tenant"),
            Error::Room { results } => write!(f, "there is room for {results} results, and there are more packets"),
            Error::Status(errno) => errno.fmt(f),
            Error::Refused { errno, slot, reason } => {
                write!(f, "slot {slot} is refused: {} (reason {reason}, {errno:?})", reason_words(reason))
            }
        }
    }
}

impl std::error::Error for Error {}

/// The rule that a program breaks.
fn reason_words(reason: u16) -> &'static str {
    match reason {
        // reasons: written by tools/generate
        1 => "a jump out of the program, or into the second half of a wide instruction",
        2 => "a jump to the same or an earlier slot",
        3 => "the last instruction can go on past the end",
        4 => "no path leads to the instruction",
        5 => "an unknown helper",
        6 => "arithmetic or a load into the frame pointer",
        7 => "a map's descriptor is not open",
        8 => "a map's descriptor is of something else",
        9 => "a value is loaded directly that the map does not have",
        20 => "an unreadable register is read",
        21 => "the result at the exit is not a scalar",
        22 => "an access at what is not a pointer",
        23 => "arithmetic on a pointer",
        24 => "a pointer is moved too far",
        25 => "outside the stack",
        26 => "not aligned in the stack",
        27 => "a stack byte that may not be written is read",
        28 => "a part of a spilled pointer",
        29 => "outside a map's value",
        30 => "the pointer may be null",
        31 => "an access to the context other than a load of one of its words",
        32 => "a pointer is stored outside the stack",
        33 => "a pointer is compared with something other than null",
        34 => "a helper's argument of the wrong kind",
        35 => "a helper's length may be zero or too large",
        36 => "an atomic operation in a map's value at an offset that is not known to be a multiple of its size",
        40 => "the verifier got no memory",
        101 => "no instruction begins with this byte",
        102 => "a field has a value that no instruction has there",
        103 => "a register's number is above 10",
        104 => "the second slot of a wide load is missing or wrong",
        105 => "the bytes are no whole slots",
        106 => "there is no slot",
        107 => "there are more than 4,096 slots",
        108 => "out of memory for the program",
        // end of reasons
        _ => "a rule that this version does not name",
    }
}
