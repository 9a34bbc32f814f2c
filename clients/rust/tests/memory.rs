//! Memory is refused by a limit of the process, so this file has only one test.
#![cfg(all(target_os = "linux", target_pointer_width = "64"))]

mod common;

use bpfhost::{Errno, Error, Fd, Host};
use common::{LENGTH, host, slots};
use std::ffi::c_int;

#[repr(C)]
struct Limit {
    now: u64,
    most: u64,
}

const ADDRESS_SPACE: c_int = 9;

// SAFETY: setrlimit(2) and getrlimit(2) with the types that they have on 64-bit Linux.
unsafe extern "C" {
    safe fn getrlimit(resource: c_int, limit: &mut Limit) -> c_int;
    safe fn setrlimit(resource: c_int, limit: &Limit) -> c_int;
}

/// What happens while the process gets no new memory from the system.
fn without_memory<T>(work: impl FnOnce() -> T) -> T {
    let mut before = Limit { now: 0, most: 0 };
    assert_eq!(getrlimit(ADDRESS_SPACE, &mut before), 0);
    assert_eq!(setrlimit(ADDRESS_SPACE, &Limit { now: 0, most: before.most }), 0);
    let found = work();
    assert_eq!(setrlimit(ADDRESS_SPACE, &before), 0);
    found
}

/// Makes hosts until there is no memory for one more.
fn use_up(hosts: &mut Vec<Host>) -> Error {
    let mut refused = Error::NoMemory;
    for tenants in [64, 1] {
        refused = loop {
            match Host::new(tenants) {
                Ok(host) => hosts.push(host),
                Err(error) => break error,
            }
        };
    }
    refused
}

#[test]
fn refused_memory_is_told() {
    let mut host = host(2);
    let mut long = vec![0xb700_0000_0000_0000; 4095];
    long.push(LENGTH[1]);
    let long = slots(&long);
    assert_eq!(host.tenant(1).prog_load(&long), Ok(Fd(3)));
    assert!(!host.memory_was_refused(0) && !host.memory_was_refused(1));

    // Vectors that take no memory later.
    let (mut hosts, mut loaded) = (Vec::with_capacity(10_000), Vec::with_capacity(64));
    let refused = without_memory(|| {
        let refused = use_up(&mut hosts);
        while loaded.last().is_none_or(Result::is_ok) {
            loaded.push(host.tenant(0).prog_load(&long));
        }
        refused
    });
    assert_eq!(refused, Error::NoMemory);
    assert_eq!(loaded.last(), Some(&Err(Error::Status(Errno::ENOMEM))));

    // It is reported of this tenant and no other, also when the same load succeeds.
    assert!(host.memory_was_refused(0) && !host.memory_was_refused(1));
    drop(hosts);
    assert_eq!(host.tenant(0).prog_load(&long), Ok(Fd(2 + loaded.len() as u32)));
    assert!(host.memory_was_refused(0));
}
