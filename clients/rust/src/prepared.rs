//! Programs that are verified without a host, on any thread, and installed in one later.

use crate::library::{ERR_VERSION, PreparedHandle, unexpected};
use crate::{AsProgram, Errno, Error, Fd, MapShape, Tenant};
use bpfhost_sys::{ERR_DESCRIPTORS, ERR_NO_MEMORY, ERR_STALE, bpfhost_descriptor};
use std::fmt;

/// The object that a descriptor is to name for a program that is prepared.
#[derive(Debug, Clone, Copy, PartialEq, Eq)]
pub enum Named {
    /// A map.
    Map(MapShape),
    /// A program.
    Program,
}

/// A program that was verified without a host. It may go to another thread:
///
/// ```
/// # use bpfhost::{Error, Fd, Host, Prepared};
/// // r0 = the packet's length; exit
/// let slots = [[0x61, 0x10, 0, 0, 0, 0, 0, 0], [0x95, 0, 0, 0, 0, 0, 0, 0]];
/// let prepared = std::thread::spawn(move || Prepared::new(&slots, &[])).join().expect("it does not panic")?;
/// let mut host = Host::new(1)?;
/// let installed = host.tenant(0).install(prepared)?;
/// assert_eq!(installed.expect("it names no map"), Fd(3));
/// # Ok::<(), Error>(())
/// ```
pub struct Prepared(PreparedHandle);

impl Prepared {
    /// Verifies a program with the objects that its descriptors are to name. Of several with one descriptor the first counts.
    ///
    /// # Errors
    ///
    /// [`Error::Refused`], as a load with these objects would be; EINVAL: a map of such a shape cannot be, or there are more than 64 descriptors.
    /// [`Error::NoMemory`], [`Error::Version`].
    pub fn new(program: &(impl AsProgram + ?Sized), named: &[(Fd, Named)]) -> Result<Prepared, Error> {
        let descriptors: Vec<_> = named.iter().map(descriptor).collect();
        match PreparedHandle::prepare(program.as_program(), &descriptors) {
            Ok((handle, refusal)) if refusal.status == 0 => Ok(Prepared(handle)),
            Ok((_, refusal)) => Err(Error::Refused {
                errno: Errno::of_status(refusal.status),
                slot: refusal.slot,
                reason: refusal.reason as u16,
            }),
            Err(ERR_DESCRIPTORS) => Err(Error::Status(Errno::EINVAL)),
            Err(ERR_NO_MEMORY) => Err(Error::NoMemory),
            Err(ERR_VERSION) => Err(Error::Version),
            Err(code) => panic!("{}", unexpected(code)),
        }
    }
}

impl fmt::Debug for Prepared {
    fn fmt(&self, f: &mut fmt::Formatter<'_>) -> fmt::Result {
        f.debug_struct("Prepared").finish_non_exhaustive()
    }
}

fn descriptor(&(fd, named): &(Fd, Named)) -> bpfhost_descriptor {
    match named {
        Named::Program => bpfhost_descriptor { fd: fd.0, ..Default::default() },
        Named::Map(shape) => bpfhost_descriptor {
            fd: fd.0,
            kind: shape.map_type as u32,
            key_size: shape.key_size,
            value_size: shape.value_size,
            entries: shape.max_entries,
        },
    }
}

impl Tenant<'_> {
    /// Installs a prepared program: what happens is what happens at its load, but it is neither copied nor verified again. It is given back if a
    /// descriptor that it names is not the map with which it was prepared; then nothing has changed, and the caller loads the slots.
    ///
    /// # Errors
    ///
    /// EPERM, EMFILE, ENOMEM, as of a load; then the program is used up.
    pub fn install(&mut self, prepared: Prepared) -> Result<Result<Fd, Prepared>, Error> {
        let (number, mut handle) = (self.number(), prepared.0);
        match self.host().install(number, &mut handle) {
            Ok(status) => match u32::try_from(status) {
                Ok(fd) => Ok(Ok(Fd(fd))),
                Err(_) => Err(Error::Status(Errno::of_status(status))),
            },
            Err(ERR_STALE) => Ok(Err(Prepared(handle))),
            Err(code) => panic!("{}", unexpected(code)),
        }
    }
}
