use std::fmt;

/// The error numbers that a reply may have: those of bpf(2), by their names in errno(3).
///
/// A command that is refused has changed nothing. After ENOMEM [`Host::memory_was_refused`](crate::Host::memory_was_refused) returns
/// true for the tenant.
#[derive(Debug, Clone, Copy, PartialEq, Eq, Hash)]
#[non_exhaustive]
#[repr(i32)]
pub enum Errno {
    // errors: written by tools/generate
    /// The host does not serve this tenant.
    EPERM = 1,
    /// No such key, or no key after it.
    ENOENT = 2,
    /// Too large, or the map is full.
    E2BIG = 7,
    /// The descriptor is not open.
    EBADF = 9,
    /// Out of memory.
    ENOMEM = 12,
    /// The program is not allowed to do this.
    EACCES = 13,
    /// The key exists.
    EEXIST = 17,
    /// A field or a size is invalid.
    EINVAL = 22,
    /// No descriptor is free.
    EMFILE = 24,
    /// No room for another map.
    ENOSPC = 28,
    // end of errors
}

impl Errno {
    const ALL: [Errno; 10] = [
        // all errors: written by tools/generate
        Errno::EPERM,
        Errno::ENOENT,
        Errno::E2BIG,
        Errno::EBADF,
        Errno::ENOMEM,
        Errno::EACCES,
        Errno::EEXIST,
        Errno::EINVAL,
        Errno::EMFILE,
        Errno::ENOSPC,
        // end of all errors
    ];

    /// The number of errno(3), above 0.
    pub fn number(self) -> i32 {
        self as i32
    }

    /// The error number of a reply's status, which is below 0 then. The library returns no other statuses below 0.
    pub(crate) fn of_status(status: i32) -> Errno {
        let found = Errno::ALL.into_iter().find(|errno| -errno.number() == status);
        found.unwrap_or_else(|| panic!("the status {status} is none of bpfhost's: is the library of another version?"))
    }

    fn words(self) -> &'static str {
        match self {
            // texts of errors: written by tools/generate
            Errno::EPERM => "the host does not serve this tenant",
            Errno::ENOENT => "no such key, or no key after it",
            Errno::E2BIG => "too large, or the map is full",
            Errno::EBADF => "the descriptor is not open",
            Errno::ENOMEM => "out of memory",
            Errno::EACCES => "the program is not allowed to do this",
            Errno::EEXIST => "the key exists",
            Errno::EINVAL => "a field or a size is invalid",
            Errno::EMFILE => "no descriptor is free",
            Errno::ENOSPC => "no room for another map",
            // end of texts of errors
        }
    }
}

impl fmt::Display for Errno {
    fn fmt(&self, f: &mut fmt::Formatter<'_>) -> fmt::Result {
        write!(f, "{} ({self:?})", self.words())
    }
}
