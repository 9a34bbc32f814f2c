//! Programs and shapes that the tests share.
#![allow(dead_code, reason = "each file of tests takes what it needs")]

use bpfhost::{Context, Fd, Host, MapShape, MapType, Tenant};

/// r0 = the packet's length; exit
pub const LENGTH: [u64; 2] = [0x6110_0000_0000_0000, 0x9500_0000_0000_0000];

/// Adds one to the value under index 0 of the array of descriptor 3, and returns it.
pub const COUNTS: [u64; 13] = [
    0x620a_fcff_0000_0000, // *(u32 *)(r10 - 4) = 0
    0x1811_0000_0300_0000, // r1 = map_fd 3 ll
    0x0000_0000_0000_0000,
    0xbfa2_0000_0000_0000, // r2 = r10
    0x0702_0000_fcff_ffff, // r2 += -4
    0x8500_0000_0100_0000, // call 1
    0x5500_0200_0000_0000, // if r0 != 0 goto there
    0xb700_0000_0000_0000, // r0 = 0
    0x9500_0000_0000_0000, // exit
    0xb701_0000_0100_0000, // there: r1 = 1
    0xdb10_0000_0000_0000, // lock *(u64 *)(r0 + 0) += r1
    0x7900_0000_0000_0000, // r0 = *(u64 *)(r0 + 0)
    0x9500_0000_0000_0000, // exit
];

pub const HASH: MapShape = MapShape { map_type: MapType::Hash, key_size: 4, value_size: 8, max_entries: 2 };
pub const ARRAY: MapShape = MapShape { map_type: MapType::Array, key_size: 4, value_size: 8, max_entries: 2 };

/// The bytes of slots that are written as numbers, the first byte first.
pub fn slots(numbers: &[u64]) -> Vec<[u8; 8]> {
    numbers.iter().map(|number| number.to_be_bytes()).collect()
}

pub fn host(tenants: usize) -> Host {
    Host::new(tenants).expect("there is memory for a host")
}

/// A tenant's array, descriptor 3, and the program that counts in it.
pub fn open_counter(tenant: &mut Tenant<'_>) -> Fd {
    assert_eq!(tenant.map_create(ARRAY), Ok(Fd(3)));
    tenant.prog_load(&slots(&COUNTS)).expect("it is accepted")
}

pub fn run(tenant: &mut Tenant<'_>, prog: Fd) -> u32 {
    tenant.prog_test_run(prog, &Context::default(), &[]).expect("it is a program")
}
