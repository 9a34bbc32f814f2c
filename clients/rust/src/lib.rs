#![doc = include_str!("../README.md")]
#![deny(missing_docs, unsafe_code, unsafe_op_in_unsafe_fn, clippy::undocumented_unsafe_blocks)]

mod batch;
mod built;
mod errno;
mod error;
mod host;
mod inspection;
mod json;
#[allow(unsafe_code)]
mod library;
mod packet;
mod prepared;
mod program;
mod reply;
mod save;
mod tenant;

/// The version of this crate.
pub const VERSION: &str = env!("CARGO_PKG_VERSION");

/// The version of the library that is linked: its three numbers. A host is refused ([`Error::Version`]) if it is of another binary interface.
pub fn library_version() -> [u32; 3] {
    let number = bpfhost_sys::bpfhost_c_version();
    [number >> 16, number >> 8 & 255, number & 255]
}

pub use bpfhost_sys::{
    LONGEST_FRAME, LONGEST_PACKET, LONGEST_PART, LONGEST_PAYLOAD, LONGEST_REPLY, MOST_TENANTS, TEST_RUN_HEAD,
};
pub use built::{BuiltMap, BuiltProgram, LoadedProgram, NotBuilt};
pub use errno::Errno;
pub use error::Error;
pub use host::Host;
pub use inspection::{Cost, Counts, Log, LogStyle, Opened};
pub use packet::{AsContexts, Context, Packet};
pub use prepared::{Named, Prepared};
pub use program::AsProgram;
pub use reply::Reply;
pub use tenant::{Fd, MapShape, MapType, Tenant, Update};
