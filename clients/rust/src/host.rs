use crate::batch::Batch;
use crate::library::{ERR_VERSION, Handle, PreparedHandle, Run, unexpected};
use crate::{Context, Errno, Error, Reply, Tenant};
use bpfhost_sys::{
    ERR_NO_MEMORY, ERR_NO_PART, ERR_TENANT_COUNT, LONGEST_FRAME, bpfhost_cost, bpfhost_counts, bpfhost_described,
    bpfhost_logged,
};
use std::collections::hash_map::RandomState;
use std::fmt;
use std::hash::{BuildHasher, Hasher};

/// A host of 1 to [`MOST_TENANTS`](crate::MOST_TENANTS) tenants, numbered from 0.
///
/// It may go to another thread, and is in one call at a time:
///
/// ```
/// fn may_go_to_another_thread<T: Send>() {}
/// may_go_to_another_thread::<bpfhost::Host>();
/// ```
///
/// ```compile_fail,E0277
/// fn may_be_shared_by_threads<T: Sync>() {}
/// may_be_shared_by_threads::<bpfhost::Host>();
/// ```
pub struct Host {
    handle: Handle,
    // The commands of `Tenant` build their frames here.
    frame: Vec<u8>,
    // `Tenant::run_packets` puts its packets here.
    batch: Batch,
}

/// A word of the keys that the standard library draws for its hash maps.
fn random_word() -> u64 {
    RandomState::new().build_hasher().finish()
}

impl Host {
    /// Makes a host, whose tenants have nothing open. It takes some 260 KiB for each tenant, which are free again when it is dropped.
    ///
    /// # Errors
    ///
    /// [`Error::Tenants`] if their number is not 1 to [`MOST_TENANTS`](crate::MOST_TENANTS), [`Error::NoMemory`], [`Error::Version`].
    pub fn new(tenants: usize) -> Result<Host, Error> {
        match Handle::new(tenants, [random_word(), random_word()]) {
            Ok(handle) => Ok(Host { handle, frame: Vec::new(), batch: Batch::default() }),
            Err(ERR_TENANT_COUNT) => Err(Error::Tenants { asked: tenants }),
            Err(ERR_NO_MEMORY) => Err(Error::NoMemory),
            Err(ERR_VERSION) => Err(Error::Version),
            Err(code) => panic!("{}", unexpected(code)),
        }
    }

    /// One tenant of this host. Each command for a number that is not served returns [`EPERM`](crate::Errno::EPERM).
    pub fn tenant(&mut self, number: u16) -> Tenant<'_> {
        Tenant::new(self, number)
    }

    /// Handles a frame of any length and content, which is what follows the length field in a stream. The reply is lent, and
    /// nothing is copied.
    pub fn handle(&mut self, frame: &[u8]) -> Reply<'_> {
        Reply::new(self.handle.handle(frame))
    }

    /// Handles a frame of a tenant, a command and its fields. A frame that is too long is cut after one byte too many: its reply is
    /// the same, since only its head and its length are looked at.
    pub(crate) fn ask(&mut self, tenant: u16, command: u16, fields: &[&[u8]]) -> Reply<'_> {
        self.frame.clear();
        self.frame.extend_from_slice(&tenant.to_le_bytes());
        self.frame.extend_from_slice(&command.to_le_bytes());
        for field in fields {
            let left = LONGEST_FRAME + 1 - self.frame.len();
            self.frame.extend_from_slice(&field[..field.len().min(left)]);
        }
        Reply::new(self.handle.handle(&self.frame))
    }

    /// Handles a frame of a tenant, of which `after` has what follows its number.
    pub(crate) fn ask_as(&mut self, tenant: u16, after: &[u8]) -> Reply<'_> {
        self.frame.clear();
        self.frame.extend_from_slice(&tenant.to_le_bytes());
        self.frame.extend_from_slice(after);
        Reply::new(self.handle.handle(&self.frame))
    }

    /// Copies packets one after another, and runs a program of a tenant on them. Returns how many were run.
    pub(crate) fn run_packets(
        &mut self,
        run: Run,
        contexts: &[Context],
        packets: impl IntoIterator<Item: AsRef<[u8]>>,
        results: &mut [u32],
    ) -> Result<usize, Error> {
        self.batch.fill(packets, results.len())?;
        let Batch { bytes, ends } = &self.batch;
        run_packets(&mut self.handle, run, contexts, bytes, ends, results)
    }

    /// Runs a program of a tenant on packets that lie one after another. Returns how many were run.
    pub(crate) fn run_packets_in_place(
        &mut self,
        run: Run,
        contexts: &[Context],
        bytes: &[u8],
        ends: &[usize],
        results: &mut [u32],
    ) -> Result<usize, Error> {
        run_packets(&mut self.handle, run, contexts, bytes, ends, results)
    }

    /// The frames of one part of a tenant, lent; `None` if there is no such part.
    pub(crate) fn save_part(&mut self, tenant: u16, part: usize) -> Result<Option<&[u8]>, Error> {
        match self.handle.save(tenant, part) {
            Ok(frames) => Ok(Some(frames)),
            Err(ERR_NO_PART) => Ok(None),
            Err(ERR_NO_MEMORY) => Err(Error::NoMemory),
            Err(code) => panic!("{}", unexpected(code)),
        }
    }

    pub(crate) fn counts(&mut self, tenant: u16) -> bpfhost_counts {
        self.handle.counts(tenant)
    }

    pub(crate) fn describe(&mut self, tenant: u16, fd: u32) -> bpfhost_described {
        self.handle.describe(tenant, fd)
    }

    pub(crate) fn program_cost(&mut self, tenant: u16, fd: u32) -> bpfhost_cost {
        self.handle.program_cost(tenant, fd)
    }

    pub(crate) fn verify(
        &mut self,
        tenant: u16,
        slots: &[u8],
        style: u32,
        room: &mut [u8],
    ) -> Result<bpfhost_logged, i32> {
        self.handle.verify(tenant, slots, style, room)
    }

    pub(crate) fn install(&mut self, tenant: u16, prepared: &mut PreparedHandle) -> Result<i32, i32> {
        self.handle.install(tenant, prepared)
    }

    /// Whether memory was ever refused to a tenant. While it was not, the tenant's replies are those that it would get on a host of its own.
    /// False for a number that is not served.
    pub fn memory_was_refused(&mut self, tenant: u16) -> bool {
        self.handle.memory_was_refused(tenant)
    }
}

impl fmt::Debug for Host {
    fn fmt(&self, f: &mut fmt::Formatter<'_>) -> fmt::Result {
        f.debug_struct("Host").finish_non_exhaustive()
    }
}

/// Runs a program of a tenant on packets that lie one after another in `bytes`, and end before the bytes of `ends`.
fn run_packets(
    handle: &mut Handle,
    run: Run,
    contexts: &[Context],
    bytes: &[u8],
    ends: &[usize],
    results: &mut [u32],
) -> Result<usize, Error> {
    if results.len() < ends.len() {
        return Err(Error::Room { results: results.len() });
    }
    let ran = handle.run_packets(run, contexts, bytes, ends, results);
    ran.map_err(|status| Error::Status(Errno::of_status(status)))
}
