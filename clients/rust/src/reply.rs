use crate::{Errno, Error};
use bpfhost_sys::PROG_LOAD;

/// A reply, lent by the host until its next call:
///
/// ```compile_fail,E0499
/// # let mut host = bpfhost::Host::new(1).unwrap();
/// let reply = host.handle(&[]);
/// host.handle(&[]);
/// reply.status();
/// ```
#[derive(Debug, Clone, Copy, PartialEq, Eq)]
pub struct Reply<'a> {
    bytes: &'a [u8],
}

impl<'a> Reply<'a> {
    /// `bytes` are one whole reply.
    pub(crate) fn new(bytes: &'a [u8]) -> Reply<'a> {
        Reply { bytes }
    }

    /// The whole reply with its length field, 12 to [`LONGEST_REPLY`](crate::LONGEST_REPLY) bytes, as it is in a stream.
    pub fn bytes(&self) -> &'a [u8] {
        self.bytes
    }

    /// The tenant of the frame; 65535 if the frame is shorter than four bytes.
    pub fn tenant(&self) -> u16 {
        u16::from_le_bytes(self.field(4))
    }

    /// The command of the frame; 65535 if the frame is shorter than four bytes.
    pub fn command(&self) -> u16 {
        u16::from_le_bytes(self.field(6))
    }

    /// A new descriptor, 0, or an error number with a minus.
    pub fn status(&self) -> i32 {
        i32::from_le_bytes(self.field(8))
    }

    /// What follows the status, 0 to [`LONGEST_PAYLOAD`](crate::LONGEST_PAYLOAD) bytes.
    pub fn payload(&self) -> &'a [u8] {
        &self.bytes[12..]
    }

    /// The status if it is not below 0, or else the error of the reply.
    pub fn done(&self) -> Result<u32, Error> {
        let status = self.status();
        u32::try_from(status).map_err(|_| self.error(Errno::of_status(status)))
    }

    fn error(&self, errno: Errno) -> Error {
        if self.command() != PROG_LOAD || self.payload().len() != 6 {
            return Error::Status(errno);
        }
        Error::Refused { errno, slot: u32::from_le_bytes(self.field(12)), reason: u16::from_le_bytes(self.field(16)) }
    }

    /// The payload of a test run.
    pub(crate) fn result(&self) -> u32 {
        u32::from_le_bytes(self.field(12))
    }

    /// A field of a reply that has it.
    fn field<const N: usize>(&self, at: usize) -> [u8; N] {
        *self.bytes[at..].first_chunk().expect("a reply has its fields")
    }
}
