//! A host of the library, by safe functions over those of `bpfhost-sys`. All `unsafe` code of this crate is here.
//!
//! No contract of the library's functions has a `requires`, so all that a call owes are its parameters' types (crates/bpfhost_c). A `&mut`
//! and a slice are not null, are aligned, lead to a whole value, and outlive the call; what a `&mut` leads to overlaps no other parameter.

use crate::{Context, Errno};
use bpfhost_sys::{
    ABI, DONE, ERR_NO_MEMORY, ERR_TOO_BIG, bpfhost, bpfhost_bytes, bpfhost_c_abi, bpfhost_c_describe, bpfhost_c_free,
    bpfhost_c_handle_lent, bpfhost_c_install, bpfhost_c_memory_refused, bpfhost_c_new, bpfhost_c_prepare,
    bpfhost_c_prepared_free, bpfhost_c_program_cost, bpfhost_c_run_packets, bpfhost_c_save, bpfhost_c_status,
    bpfhost_c_verify, bpfhost_cost, bpfhost_counts, bpfhost_described, bpfhost_descriptor, bpfhost_logged,
    bpfhost_prepared, bpfhost_refusal,
};
use std::ptr::{NonNull, null_mut};

/// The words of a context, which each call names: the library may be of a version with more or fewer.
const CONTEXT_WORDS: usize = size_of::<Context>() / size_of::<u32>();
const _: () = assert!(size_of::<Context>() % size_of::<u32>() == 0);

/// The library that is linked is of another binary interface; the header for C has the same code.
pub(crate) const ERR_VERSION: i32 = -23;

/// A program of a tenant, and the bound on the instructions of a batch of its runs; 0 for no bound.
#[derive(Clone, Copy)]
pub(crate) struct Run {
    pub(crate) tenant: u16,
    pub(crate) prog: u32,
    pub(crate) bound: u64,
}

/// A handle with a host, from its first moment to its last.
pub(crate) struct Handle(bpfhost);

// SAFETY: the library proves it: `unsafe impl Send for Handle` in `crates/bpfhost_c/src/handle.rt`, with its proof. A handle is the only
// owner of its host, and two hosts share nothing.
unsafe impl Send for Handle {}

impl Handle {
    /// Makes a host with a seed of two words, or returns a code that says why not.
    pub(crate) fn new(tenants: usize, seed: [u64; 2]) -> Result<Handle, i32> {
        if bpfhost_c_abi() as usize != ABI {
            return Err(ERR_VERSION);
        }
        let mut handle = Handle(bpfhost { at: null_mut() });
        // SAFETY: the handle is empty, as the library requires, and is passed as a `&mut`.
        match unsafe { bpfhost_c_new(&mut handle.0, tenants, seed[0], seed[1]) } {
            DONE => Ok(handle),
            code => Err(code),
        }
    }

    /// The reply to a frame, lent until the next call.
    pub(crate) fn handle(&mut self, frame: &[u8]) -> &[u8] {
        let mut lent = bpfhost_bytes { at: NonNull::dangling().as_ptr(), length: 0 };
        // SAFETY: the address and the length are those of a slice; the handle and `lent` are passed as a `&mut` each.
        done(unsafe { bpfhost_c_handle_lent(&mut self.0, frame.as_ptr(), frame.len(), &mut lent) });
        // SAFETY: by `done` of the contract the reply is there (`StandsAt`): these are bytes of a vector that the handle owns. They
        // change at the next call with the handle, which can't come while they are used, since they borrow it.
        unsafe { std::slice::from_raw_parts(lent.at, lent.length) }
    }

    /// Runs a program of a tenant on packets that lie one after another in `bytes`, and end before the bytes of `ends`, with one context for
    /// all or one for each. Returns how many were run, or the status; E2BIG too if a library of another version does not know a word of a
    /// context, and ENOMEM if it has no memory to bring contexts to its own size.
    ///
    /// # Panics
    ///
    /// If there are more packets than results.
    pub(crate) fn run_packets(
        &mut self,
        run: Run,
        contexts: &[Context],
        bytes: &[u8],
        ends: &[usize],
        results: &mut [u32],
    ) -> Result<usize, i32> {
        assert!(ends.len() <= results.len(), "there is a result for each packet");
        let (mut status, mut ran) = (0, 0);
        // SAFETY: each address with its length is that of a slice; a context is its words, one after another (`repr(C)`, and its size).
        // What may be written is the handle, `results`, `status` and `ran`, each passed as a `&mut`.
        let code = unsafe {
            bpfhost_c_run_packets(
                &mut self.0,
                run.tenant,
                run.prog,
                run.bound,
                contexts.as_ptr().cast(),
                contexts.len() * CONTEXT_WORDS,
                CONTEXT_WORDS,
                bytes.as_ptr(),
                bytes.len(),
                ends.as_ptr(),
                ends.len(),
                results.as_mut_ptr(),
                results.len(),
                &mut status,
                &mut ran,
            )
        };
        match code {
            ERR_TOO_BIG => Err(-(Errno::E2BIG as i32)),
            ERR_NO_MEMORY => Err(-(Errno::ENOMEM as i32)),
            code => {
                done(code);
                if status == 0 { Ok(ran) } else { Err(status) }
            }
        }
    }

    /// The frames of a part of a tenant, lent until the next call; else the code.
    pub(crate) fn save(&mut self, tenant: u16, part: usize) -> Result<&[u8], i32> {
        let mut lent = bpfhost_bytes { at: NonNull::dangling().as_ptr(), length: 0 };
        // SAFETY: the handle and `lent` are passed as a `&mut` each.
        match unsafe { bpfhost_c_save(&mut self.0, tenant, part, &mut lent) } {
            // A vector without bytes may have no address.
            DONE if lent.length == 0 => Ok(&[]),
            // SAFETY: by `done` of the contract the frames are there (`SavedAt`): these are bytes of a vector that the handle owns. They
            // change at the next call with the handle, which can't come while they are used, since they borrow it.
            DONE => Ok(unsafe { std::slice::from_raw_parts(lent.at, lent.length) }),
            code => Err(code),
        }
    }

    /// Whether memory was ever refused to a tenant.
    pub(crate) fn memory_was_refused(&mut self, tenant: u16) -> bool {
        let mut refused = false;
        // SAFETY: the handle and `refused`, which is a whole `bool`, are passed as a `&mut` each.
        done(unsafe { bpfhost_c_memory_refused(&mut self.0, tenant, &mut refused) });
        refused
    }

    /// How much a tenant has.
    pub(crate) fn counts(&mut self, tenant: u16) -> bpfhost_counts {
        let mut counts = bpfhost_counts::default();
        // SAFETY: the handle and `counts`, which is whole, are passed as a `&mut` each.
        done(unsafe { bpfhost_c_status(&mut self.0, tenant, &mut counts) });
        counts
    }

    /// What a descriptor of a tenant names.
    pub(crate) fn describe(&mut self, tenant: u16, fd: u32) -> bpfhost_described {
        let mut described = bpfhost_described::default();
        // SAFETY: the handle and `described` are passed as a `&mut` each.
        done(unsafe { bpfhost_c_describe(&mut self.0, tenant, fd, &mut described) });
        described
    }

    /// What the program that a descriptor of a tenant names costs; both numbers are 0 if it names none.
    pub(crate) fn program_cost(&mut self, tenant: u16, fd: u32) -> bpfhost_cost {
        let mut cost = bpfhost_cost::default();
        // SAFETY: the handle and `cost` are passed as a `&mut` each.
        done(unsafe { bpfhost_c_program_cost(&mut self.0, tenant, fd, &mut cost) });
        cost
    }

    /// As much of a log as fits into `room`, with a zero byte after it; the length of the whole, and the verdict. Else the code.
    pub(crate) fn verify(
        &mut self,
        tenant: u16,
        slots: &[u8],
        style: u32,
        room: &mut [u8],
    ) -> Result<bpfhost_logged, i32> {
        let mut logged = bpfhost_logged::default();
        // SAFETY: each address with its length is that of a slice; the handle, `room` and `logged` are passed as a `&mut` each.
        let code = unsafe {
            bpfhost_c_verify(
                &mut self.0,
                tenant,
                slots.as_ptr(),
                slots.len(),
                style,
                room.as_mut_ptr(),
                room.len(),
                &mut logged,
            )
        };
        if code == DONE { Ok(logged) } else { Err(code) }
    }

    /// The status of the load of a prepared program, which is used up then; else the code.
    pub(crate) fn install(&mut self, tenant: u16, prepared: &mut PreparedHandle) -> Result<i32, i32> {
        let mut status = 0;
        // SAFETY: the two handles and `status` are passed as a `&mut` each.
        match unsafe { bpfhost_c_install(&mut self.0, tenant, &mut prepared.0, &mut status) } {
            DONE => Ok(status),
            code => Err(code),
        }
    }
}

/// A handle of a prepared program, from its first moment to its last.
pub(crate) struct PreparedHandle(bpfhost_prepared);

// SAFETY: the library proves it: `unsafe impl Send for Prepared` in `crates/bpfhost_c/src/prepared.rt`. A handle is the only owner of its program.
unsafe impl Send for PreparedHandle {}

impl PreparedHandle {
    /// The handle of a program, and why it is refused if its status is not 0; else the code.
    pub(crate) fn prepare(slots: &[u8], descriptors: &[bpfhost_descriptor]) -> Result<(Self, bpfhost_refusal), i32> {
        if bpfhost_c_abi() as usize != ABI {
            return Err(ERR_VERSION);
        }
        let mut prepared = PreparedHandle(bpfhost_prepared { at: null_mut() });
        let mut refusal = bpfhost_refusal::default();
        // SAFETY: each address with its length is that of a slice; the empty handle and `refusal` are passed as a `&mut` each.
        let code = unsafe {
            bpfhost_c_prepare(
                &mut prepared.0,
                slots.as_ptr(),
                slots.len(),
                descriptors.as_ptr(),
                descriptors.len(),
                &mut refusal,
            )
        };
        if code == DONE { Ok((prepared, refusal)) } else { Err(code) }
    }
}

impl Drop for PreparedHandle {
    fn drop(&mut self) {
        // SAFETY: the handle is passed as a `&mut`, and is empty or as the library left it.
        unsafe { bpfhost_c_prepared_free(&mut self.0) }
    }
}

impl Drop for Handle {
    fn drop(&mut self) {
        // SAFETY: the handle is passed as a `&mut`, and is empty or as the library left it.
        unsafe { bpfhost_c_free(&mut self.0) }
    }
}

/// By `code` of the contracts a call on a handle with a host returns no other code.
fn done(code: i32) {
    assert_eq!(code, DONE, "{}", unexpected(code));
}

pub(crate) fn unexpected(code: i32) -> String {
    format!("the code {code} of bpfhost comes here from no library of this version")
}
