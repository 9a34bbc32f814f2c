//! A tenant as frames: saved from one host, restored on another.

use crate::{Errno, Error, Fd, Tenant};
use bpfhost_sys::{FIRST_DESCRIPTOR, LONGEST_FRAME, MOST_DESCRIPTORS};

/// The bytes of a frame's length field.
const LENGTH_FIELD: usize = 4;

impl Tenant<'_> {
    /// The frames of one part of this tenant, each with its length before it, lent until the host's next call; `None` after the last
    /// part, and if the tenant is not served.
    ///
    /// The first part, of number 0, opens a program at each descriptor. For each map and program, in the order in which they were made,
    /// one part creates it, and the parts after it put the keys of the map, at most 1,024 each. The last part closes what is not open.
    ///
    /// A new tenant of the same number, of any host, that is given the frames of all parts in their order
    /// ([`restore`](Tenant::restore)) replies to each frame as this tenant does. Other tenants may be served between two parts; this
    /// one must not change before its last part is taken. A part has at most [`LONGEST_PART`](crate::LONGEST_PART) bytes, which the
    /// host keeps until its next save.
    ///
    /// ```
    /// # use bpfhost::{Error, Host};
    /// # let (mut first, mut second) = (Host::new(2)?, Host::new(2)?);
    /// let mut part = 0;
    /// while let Some(frames) = first.tenant(1).save_part(part)? {
    ///     second.tenant(1).restore(frames)?;
    ///     part += 1;
    ///     // Here the first host may serve tenant 0.
    /// }
    /// # Ok::<(), Error>(())
    /// ```
    ///
    /// # Errors
    ///
    /// [`Error::NoMemory`].
    pub fn save_part(&mut self, part: usize) -> Result<Option<&[u8]>, Error> {
        let number = self.number();
        self.host().save_part(number, part)
    }

    /// The frames of all parts of this tenant, one after another.
    ///
    /// # Errors
    ///
    /// EPERM: the tenant is not served. [`Error::NoMemory`].
    pub fn save(&mut self) -> Result<Vec<u8>, Error> {
        let mut frames = Vec::new();
        let mut part = 0;
        while let Some(more) = self.save_part(part)? {
            frames.extend_from_slice(more);
            part += 1;
        }
        if part == 0 { Err(Error::Status(Errno::EPERM)) } else { Ok(frames) }
    }

    /// Handles saved frames, each with its length before it, one after another. They may be those of all parts or of some: a save is
    /// restored by its parts in their order, in any number of calls. The tenant has to be new: it was given no frame yet, or has
    /// nothing open.
    ///
    /// # Errors
    ///
    /// [`Error::BadFrames`]: the bytes end inside a frame, or a frame is another tenant's, and is not handled. Otherwise the error of the
    /// first frame that is refused: EMFILE if the tenant was not new, ENOMEM if memory is refused. The frames before it are handled, and
    /// the tenant is not the saved one; [`close_all`](Tenant::close_all) makes it new again.
    pub fn restore(&mut self, frames: &[u8]) -> Result<(), Error> {
        let mut rest = frames;
        while !rest.is_empty() {
            let (frame, later) = first_frame(rest, self.number()).ok_or(Error::BadFrames)?;
            self.host().handle(frame).done()?;
            rest = later;
        }
        Ok(())
    }

    /// As [`restore`](Tenant::restore), for saved frames of any one tenant: each is handled with this tenant's number. All are looked at
    /// before the first is handled.
    ///
    /// ```
    /// # use bpfhost::{Error, Fd, Host, MapShape, MapType};
    /// # let mut host = Host::new(2)?;
    /// # let shape = MapShape { map_type: MapType::Hash, key_size: 4, value_size: 8, max_entries: 16 };
    /// host.tenant(0).map_create(shape)?;
    /// let saved = host.tenant(0).save()?;
    /// host.tenant(1).restore_as(&saved)?;
    /// assert_eq!(host.tenant(1).close_all(), Ok(1));
    /// # Ok::<(), Error>(())
    /// ```
    ///
    /// # Errors
    ///
    /// [`Error::BadFrames`]: the bytes end inside a frame, or are of several tenants; nothing is handled. Otherwise as
    /// [`restore`](Tenant::restore).
    pub fn restore_as(&mut self, frames: &[u8]) -> Result<(), Error> {
        let saved =
            frames.get(LENGTH_FIELD..LENGTH_FIELD + 2).map_or(0, |number| u16::from_le_bytes([number[0], number[1]]));
        let mut each = Vec::new();
        let mut rest = frames;
        while !rest.is_empty() {
            let (frame, later) = first_frame(rest, saved).ok_or(Error::BadFrames)?;
            each.push(frame);
            rest = later;
        }
        let number = self.number();
        for frame in each {
            let (_, after) = frame.split_at(2);
            // One byte more than a frame may have says that it is too long.
            self.host().ask_as(number, &after[..after.len().min(LONGEST_FRAME - 1)]).done()?;
        }
        Ok(())
    }

    /// Closes all descriptors, and returns how many were open: the tenant is new again.
    ///
    /// # Errors
    ///
    /// EPERM: the tenant is not served.
    pub fn close_all(&mut self) -> Result<usize, Error> {
        let mut closed = 0;
        for fd in FIRST_DESCRIPTOR..FIRST_DESCRIPTOR + MOST_DESCRIPTORS {
            match self.close(Fd(fd as u32)) {
                Ok(()) => closed += 1,
                Err(Error::Status(Errno::EBADF)) => {}
                Err(error) => return Err(error),
            }
        }
        Ok(closed)
    }
}

/// The frame at the front of some bytes, without its length, and the bytes after it, if it is whole and of this tenant.
fn first_frame(bytes: &[u8], tenant: u16) -> Option<(&[u8], &[u8])> {
    let (length, rest) = bytes.split_first_chunk::<LENGTH_FIELD>()?;
    let (frame, later) = rest.split_at_checked(u32::from_le_bytes(*length) as usize)?;
    frame.starts_with(&tenant.to_le_bytes()).then_some((frame, later))
}
