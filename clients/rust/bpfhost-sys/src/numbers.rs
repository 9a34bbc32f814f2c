//! The numbers of the library and of its protocol. `bpfhost.h` has the same names with `BPFHOST_` in front.

// limits: written by tools/generate
/// The most tenants of a host.
pub const MOST_TENANTS: usize = 64;
/// The lowest descriptor.
pub const FIRST_DESCRIPTOR: usize = 3;
/// The most open descriptors of a tenant.
pub const MOST_DESCRIPTORS: usize = 64;
/// The most bytes of a packet.
pub const LONGEST_PACKET: usize = 65_536;
/// The most bytes of a frame, without its length field; the reply to a longer one is E2BIG.
pub const LONGEST_FRAME: usize = 131_072;
/// The most bytes of a reply, its length field included.
pub const LONGEST_REPLY: usize = 4108;
/// The most bytes of a reply's payload.
pub const LONGEST_PAYLOAD: usize = 4096;
/// The bytes of a PROG_TEST_RUN frame before its packet.
pub const TEST_RUN_HEAD: usize = 48;
/// The most bytes of a part of a save: 1,024 of the longest keys.
pub const LONGEST_PART: usize = 610_304;
/// What a call of a helper counts for in the bound of a batch, in instructions besides its own.
pub const CALL_WEIGHT: usize = 128;
/// The number of the library's binary interface, which changes with its soname.
pub const ABI: usize = 3;
// end of limits

// codes: written by tools/generate
/// A code: the call succeeded.
pub const DONE: i32 = 0;
/// A code: the handle is empty.
pub const ERR_NO_HOST: i32 = -1;
/// A code: the handle has a host already.
pub const ERR_HAS_HOST: i32 = -2;
/// A code: a host has 1 to 64 tenants.
pub const ERR_TENANT_COUNT: i32 = -3;
/// A code: out of memory for the host or for the call.
pub const ERR_NO_MEMORY: i32 = -4;
/// A code: the buffer is smaller than the longest reply, or than a value or a key.
pub const ERR_BUFFER_TOO_SMALL: i32 = -5;
/// A code: the tenant has no such part, or is not served.
pub const ERR_NO_PART: i32 = -6;
/// A code: a struct has a word that the library does not know, and that is not 0.
pub const ERR_TOO_BIG: i32 = -7;
/// A code: a struct has no size, or one of no whole words.
pub const ERR_SIZE: i32 = -8;
/// A code: a descriptor of the program names no map of the shape with which it was prepared.
pub const ERR_STALE: i32 = -9;
/// A code: there is no prepared program: it was installed or freed.
pub const ERR_NO_PROGRAM: i32 = -10;
/// A code: there is a prepared program already.
pub const ERR_HAS_PROGRAM: i32 = -11;
/// A code: a descriptor is given an object that there cannot be, or there are too many.
pub const ERR_DESCRIPTORS: i32 = -12;
/// A code: there is no style of a log with this number.
pub const ERR_STYLE: i32 = -13;
// end of codes

// commands: written by tools/generate
/// The command MAP_CREATE.
pub const MAP_CREATE: u16 = 0;
/// The command MAP_LOOKUP_ELEM.
pub const MAP_LOOKUP: u16 = 1;
/// The command MAP_UPDATE_ELEM.
pub const MAP_UPDATE: u16 = 2;
/// The command MAP_DELETE_ELEM.
pub const MAP_DELETE: u16 = 3;
/// The command MAP_GET_NEXT_KEY.
pub const MAP_NEXT_KEY: u16 = 4;
/// The command PROG_LOAD.
pub const PROG_LOAD: u16 = 5;
/// The command PROG_TEST_RUN.
pub const PROG_TEST_RUN: u16 = 10;
/// The command CLOSE.
pub const CLOSE: u16 = 256;
// end of commands

// types: written by tools/generate
/// The type of a map: hash.
pub const HASH: u32 = 1;
/// The type of a map: array.
pub const ARRAY: u32 = 2;
/// The type of a program: a socket filter.
pub const SOCKET_FILTER: u32 = 1;
/// The flag BPF_ANY of an update.
pub const ANY: u64 = 0;
/// The flag BPF_NOEXIST of an update.
pub const NOEXIST: u64 = 1;
/// The flag BPF_EXIST of an update.
pub const EXIST: u64 = 2;
// end of types
