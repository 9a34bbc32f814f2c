#![doc = include_str!("../README.md")]
#![deny(missing_docs)]
#![no_std]
#![allow(non_camel_case_types)]

mod numbers;

pub use numbers::*;

use core::ffi::c_void;

/// The handle of a host: empty if `at` is null. Only the library writes it, and it is not copied. In C it is an opaque type.
#[derive(Debug)]
#[repr(C)]
pub struct bpfhost {
    /// The address of the host.
    pub at: *mut c_void,
}

/// Bytes that the library lends.
#[derive(Debug)]
#[repr(C)]
pub struct bpfhost_bytes {
    /// The address of the first one.
    pub at: *const u8,
    /// How many there are.
    pub length: usize,
}

/// How much a tenant has at a moment.
#[derive(Debug, Clone, Copy, Default, PartialEq, Eq)]
#[repr(C)]
pub struct bpfhost_counts {
    /// Live maps: those that an open descriptor or a loaded program names.
    pub maps: u32,
    /// The keys of all of them. An array has all its indices.
    pub entries: u32,
    /// The bytes that their values take, each rounded up to a multiple of eight.
    pub value_bytes: u32,
    /// Open descriptors that name a program.
    pub programs: u32,
    /// Open descriptors.
    pub descriptors: u32,
    /// Whether memory was ever refused to a load or a new map.
    pub memory_refused: bool,
}

/// What a descriptor names. Fields that do not belong to its kind are 0.
#[derive(Debug, Clone, Copy, Default, PartialEq, Eq)]
#[repr(C)]
pub struct bpfhost_described {
    /// 0 for nothing, 1 for a map, 2 for a program.
    pub kind: u32,
    /// The type of a map: 1 for a hash map, 2 for an array.
    pub map_type: u32,
    /// Bytes of a map's key.
    pub key_size: u32,
    /// Bytes of a map's value.
    pub value_size: u32,
    /// The most keys that a map may have.
    pub max_entries: u32,
    /// The keys that a map has.
    pub entries: u32,
    /// The slots of a program.
    pub slots: u32,
}

/// What a program costs: the most instructions, and the most calls of helpers, on a path through it. Both are 0 for no program.
#[derive(Debug, Clone, Copy, Default, PartialEq, Eq)]
#[repr(C)]
pub struct bpfhost_cost {
    /// 1 to 4,096 instructions.
    pub instructions: u32,
    /// 0 to 4,095 calls.
    pub calls: u32,
}

/// A log of the verifier: its length in bytes, and whether the program is accepted.
#[derive(Debug, Clone, Copy, Default, PartialEq, Eq)]
#[repr(C)]
pub struct bpfhost_logged {
    /// The length of the whole text.
    pub length: usize,
    /// The verdict.
    pub is_accepted: bool,
}

/// The handle of a program that was verified without a host: empty if `at` is null. Only the library writes it, and it is not copied.
#[derive(Debug)]
#[repr(C)]
pub struct bpfhost_prepared {
    /// The address of the program.
    pub at: *mut c_void,
}

/// The object that a descriptor is to name for a program that is prepared.
#[derive(Debug, Clone, Copy, Default, PartialEq, Eq)]
#[repr(C)]
pub struct bpfhost_descriptor {
    /// The descriptor.
    pub fd: u32,
    /// 0 for a program, 1 for a hash map, 2 for an array.
    pub kind: u32,
    /// Bytes of a map's key.
    pub key_size: u32,
    /// Bytes of a map's value.
    pub value_size: u32,
    /// The most keys of a map.
    pub entries: u32,
}

/// Why slots are refused; all 0 if they are not.
#[derive(Debug, Clone, Copy, Default, PartialEq, Eq)]
#[repr(C)]
pub struct bpfhost_refusal {
    /// The status that a load would return.
    pub status: i32,
    /// The first slot at which a rule is broken.
    pub slot: u32,
    /// The rule.
    pub reason: u32,
}

unsafe extern "C" {
    /// Makes a host for so many tenants, with the two words of its seed, in an empty handle. Returns a code.
    pub fn bpfhost_c_new(handle: *mut bpfhost, tenants: usize, first: u64, second: u64) -> i32;

    /// Handles a frame, and copies the reply to the front of a buffer; `written` gets its length. Returns a code.
    pub fn bpfhost_c_handle(
        handle: *mut bpfhost,
        frame: *const u8,
        frame_length: usize,
        room: *mut u8,
        room_length: usize,
        written: *mut usize,
    ) -> i32;

    /// Handles a frame, and lends the reply until the next call on the handle. Returns a code.
    pub fn bpfhost_c_handle_lent(
        handle: *mut bpfhost,
        frame: *const u8,
        frame_length: usize,
        reply: *mut bpfhost_bytes,
    ) -> i32;

    /// The version of the library: its three numbers, in eight bits each.
    pub safe fn bpfhost_c_version() -> u32;

    /// The number of the library's binary interface: no other function may be called if it is not [`ABI`].
    pub safe fn bpfhost_c_abi() -> u32;

    /// Runs a program of a tenant on many packets, with one context for all of them, or one for each; a context has `context_words` words, and
    /// all together are `word_count` words. Packet i ends before byte `ends[i]`. If `bound` is not 0, only as many of the first packets are run
    /// as can be without executing more instructions, but at least one. `status` gets 0, or why no packet was run, and `ran` how many were.
    /// Returns a code.
    pub fn bpfhost_c_run_packets(
        handle: *mut bpfhost,
        tenant: u16,
        fd: u32,
        bound: u64,
        contexts: *const u32,
        word_count: usize,
        context_words: usize,
        bytes: *const u8,
        byte_count: usize,
        ends: *const usize,
        packets: usize,
        results: *mut u32,
        room: usize,
        status: *mut i32,
        ran: *mut usize,
    ) -> i32;

    /// Saves a part of a tenant, and lends its frames, each with its length field, until the next call on the handle. Returns a code.
    pub fn bpfhost_c_save(handle: *mut bpfhost, tenant: u16, part: usize, frames: *mut bpfhost_bytes) -> i32;

    /// Writes whether memory was ever refused to a tenant. Returns a code.
    pub fn bpfhost_c_memory_refused(handle: *mut bpfhost, tenant: u16, refused: *mut bool) -> i32;

    /// Writes how much a tenant has; all is 0 for a number that is not served. Returns a code.
    pub fn bpfhost_c_status(handle: *mut bpfhost, tenant: u16, counts: *mut bpfhost_counts) -> i32;

    /// Writes what a descriptor of a tenant names. Returns a code.
    pub fn bpfhost_c_describe(handle: *mut bpfhost, tenant: u16, fd: u32, described: *mut bpfhost_described) -> i32;

    /// Writes what the program that a descriptor of a tenant names costs. Returns a code.
    pub fn bpfhost_c_program_cost(handle: *mut bpfhost, tenant: u16, fd: u32, cost: *mut bpfhost_cost) -> i32;

    /// Verifies slots with the open descriptors of a tenant, and writes as much of the log as fits to the front of a buffer, with a zero byte
    /// after it. `style` is 0, 1 or 2. Returns a code.
    pub fn bpfhost_c_verify(
        handle: *mut bpfhost,
        tenant: u16,
        slots: *const u8,
        slots_length: usize,
        style: u32,
        room: *mut u8,
        room_length: usize,
        logged: *mut bpfhost_logged,
    ) -> i32;

    /// Verifies slots without a host, with the objects that descriptors are to name, and keeps the program in an empty handle; or writes why they
    /// are refused. Returns a code.
    pub fn bpfhost_c_prepare(
        prepared: *mut bpfhost_prepared,
        slots: *const u8,
        slots_length: usize,
        descriptors: *const bpfhost_descriptor,
        descriptor_count: usize,
        refusal: *mut bpfhost_refusal,
    ) -> i32;

    /// Opens a prepared program of a tenant, and writes the status that its load would return; its handle is empty then. Returns a code.
    pub fn bpfhost_c_install(
        handle: *mut bpfhost,
        tenant: u16,
        prepared: *mut bpfhost_prepared,
        status: *mut i32,
    ) -> i32;

    /// Frees the program of a handle, which is empty then.
    pub fn bpfhost_c_prepared_free(prepared: *mut bpfhost_prepared);

    /// Frees the host of a handle, which is empty then. On an empty handle it does nothing.
    pub fn bpfhost_c_free(handle: *mut bpfhost);
}
