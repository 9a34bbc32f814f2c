//! Each error, and that nothing changes by it. tests/memory.rs has those of refused memory.

mod common;

use bpfhost::{Context, Errno, Error, Fd, Host, LONGEST_FRAME, MOST_TENANTS, MapShape, MapType, TEST_RUN_HEAD, Update};
use common::{ARRAY, HASH, LENGTH, host, slots};

fn status<T>(errno: Errno) -> Result<T, Error> {
    Err(Error::Status(errno))
}

#[test]
fn a_host_has_1_to_64_tenants() {
    for asked in [0, MOST_TENANTS + 1, usize::MAX] {
        assert_eq!(Host::new(asked).err(), Some(Error::Tenants { asked }));
    }
    assert!(Host::new(MOST_TENANTS).is_ok());
}

#[test]
fn the_library_is_of_this_version() {
    let numbers = bpfhost::library_version().map(|number| number.to_string());
    assert_eq!(numbers.join("."), bpfhost::VERSION);
    assert_eq!(Error::Version.errno(), None);
    assert_eq!(Error::Version.to_string(), "the library is of another binary interface than this crate");
}

#[test]
fn a_tenant_that_is_not_served() {
    let mut host = host(2);
    for number in [2, 65535] {
        let mut tenant = host.tenant(number);
        assert_eq!(tenant.map_create(HASH), status(Errno::EPERM));
        assert_eq!(tenant.prog_load(&slots(&LENGTH)), status(Errno::EPERM));
        assert_eq!(tenant.close(Fd(3)), status(Errno::EPERM));
        assert_eq!(tenant.map_lookup(Fd(3), &vec![0; 2 * LONGEST_FRAME]), status(Errno::EPERM));
    }
}

#[test]
fn descriptors_out_of_range() {
    let mut host = host(1);
    let mut tenant = host.tenant(0);
    for fd in [0, 1, 2, 3, 66, 67, 64 + 3, 1 << 31, u32::MAX].map(Fd) {
        assert_eq!(tenant.map_lookup(fd, &[0; 4]), status(Errno::EBADF));
        assert_eq!(tenant.map_update(fd, Update::Any, &[0; 4], &[0; 8]), status(Errno::EBADF));
        assert_eq!(tenant.map_delete(fd, &[0; 4]), status(Errno::EBADF));
        assert_eq!(tenant.map_get_next_key(fd, None), status(Errno::EBADF));
        assert_eq!(tenant.prog_test_run(fd, &Context::default(), &[]), status(Errno::EBADF));
        assert_eq!(tenant.close(fd), status(Errno::EBADF));
    }
}

#[test]
fn descriptors_of_something_else() {
    let mut host = host(1);
    let mut tenant = host.tenant(0);
    let (prog, map) = (tenant.prog_load(&slots(&LENGTH)).unwrap(), tenant.map_create(ARRAY).unwrap());
    assert_eq!(tenant.map_lookup(prog, &[0; 4]), status(Errno::EINVAL));
    assert_eq!(tenant.map_get_next_key(prog, None), status(Errno::EINVAL));
    assert_eq!(tenant.prog_test_run(map, &Context::default(), &[]), status(Errno::EINVAL));
    assert_eq!(tenant.map_delete(map, &[0; 4]), status(Errno::EINVAL));
}

#[test]
fn shapes_that_no_map_has() {
    let mut host = host(1);
    let mut tenant = host.tenant(0);
    let hash =
        |key_size, value_size, max_entries| MapShape { map_type: MapType::Hash, key_size, value_size, max_entries };
    for shape in [hash(0, 8, 1), hash(513, 8, 1), hash(4, 0, 1), hash(4, 4097, 1), hash(4, 8, 0), hash(4, 8, 4097)] {
        assert_eq!(tenant.map_create(shape), status(Errno::EINVAL));
    }
    assert_eq!(tenant.map_create(MapShape { key_size: 8, ..ARRAY }), status(Errno::EINVAL));
    assert_eq!(tenant.map_create(hash(u32::MAX, u32::MAX, u32::MAX)), status(Errno::EINVAL));
    assert_eq!(tenant.map_create(hash(4, 4096, 17)), status(Errno::E2BIG));
}

#[test]
fn keys_and_values_that_do_not_fit() {
    let mut host = host(1);
    let mut tenant = host.tenant(0);
    let (hash, array) = (tenant.map_create(HASH).unwrap(), tenant.map_create(ARRAY).unwrap());
    assert_eq!(tenant.map_lookup(hash, b"short"), status(Errno::EINVAL));
    assert_eq!(tenant.map_update(hash, Update::Any, b"key1", b"short"), status(Errno::EINVAL));
    assert_eq!(tenant.map_update(hash, Update::Exist, b"key1", &[0; 8]), status(Errno::ENOENT));
    assert_eq!(tenant.map_delete(hash, b"key1"), status(Errno::ENOENT));
    tenant.map_update(hash, Update::Any, b"key1", &[1; 8]).unwrap();
    assert_eq!(tenant.map_update(hash, Update::NoExist, b"key1", &[2; 8]), status(Errno::EEXIST));
    tenant.map_update(hash, Update::Any, b"key2", &[3; 8]).unwrap();
    assert_eq!(tenant.map_update(hash, Update::Any, b"key3", &[4; 8]), status(Errno::E2BIG));
    assert_eq!(tenant.map_lookup(hash, b"key1"), Ok(&[1; 8][..]));
    assert_eq!(tenant.map_lookup(array, &2u32.to_le_bytes()), status(Errno::ENOENT));
    assert_eq!(tenant.map_update(array, Update::Any, &2u32.to_le_bytes(), &[0; 8]), status(Errno::E2BIG));
}

#[test]
fn too_many_descriptors_and_maps() {
    let mut host = host(1);
    let mut tenant = host.tenant(0);
    for _ in 0..16 {
        tenant.map_create(HASH).unwrap();
    }
    assert_eq!(tenant.map_create(HASH), status(Errno::ENOSPC));
    for fd in 16..64 {
        assert_eq!(tenant.prog_load(&slots(&LENGTH)), Ok(Fd(3 + fd)));
    }
    assert_eq!(tenant.prog_load(&slots(&LENGTH)), status(Errno::EMFILE));
    assert_eq!(tenant.map_create(HASH), status(Errno::EMFILE));
    tenant.close(Fd(40)).unwrap();
    assert_eq!(tenant.prog_load(&slots(&LENGTH)), Ok(Fd(40)));
}

#[test]
fn lengths_too_big() {
    let mut host = host(1);
    let mut tenant = host.tenant(0);
    let (prog, map) = (tenant.prog_load(&slots(&LENGTH)).unwrap(), tenant.map_create(HASH).unwrap());
    let context = Context::default();
    assert_eq!(tenant.prog_test_run(prog, &context, &vec![0; 65_536]), Ok(65_536));
    for length in [65_537, LONGEST_FRAME - TEST_RUN_HEAD, LONGEST_FRAME - TEST_RUN_HEAD + 1, 3 * LONGEST_FRAME] {
        assert_eq!(tenant.prog_test_run(prog, &context, &vec![0; length]), status(Errno::E2BIG));
        let mut room = vec![0; TEST_RUN_HEAD + length];
        assert_eq!(tenant.prog_test_run_in_place(prog, &context, &mut room), status(Errno::E2BIG));
    }
    // Eight bytes come before the key. At the limit the frame is looked at, above it is not.
    assert_eq!(tenant.map_lookup(map, &vec![0; LONGEST_FRAME - 8]), status(Errno::EINVAL));
    for length in [LONGEST_FRAME - 7, 3 * LONGEST_FRAME] {
        assert_eq!(tenant.map_lookup(map, &vec![0; length]), status(Errno::E2BIG));
        assert_eq!(tenant.map_update(map, Update::Any, &vec![0; length], &vec![0; length]), status(Errno::E2BIG));
    }
    assert_eq!(tenant.prog_load(&vec![[0; 8]; LONGEST_FRAME]), status(Errno::E2BIG));
    for length in 0..TEST_RUN_HEAD {
        let mut room = vec![0x5a; length];
        assert_eq!(tenant.prog_test_run_in_place(prog, &context, &mut room), status(Errno::EINVAL));
        assert_eq!(room, vec![0x5a; length]);
    }
}

#[test]
fn programs_that_are_refused() {
    let mut host = host(1);
    let mut tenant = host.tenant(0);
    let mut refused = |numbers: &[u64]| match tenant.prog_load(&slots(numbers)) {
        Err(Error::Refused { errno, slot, reason }) => (errno, slot, reason),
        other => panic!("{other:?}"),
    };
    let exit = LENGTH[1];
    assert_eq!(refused(&[]), (Errno::E2BIG, 0, 106));
    assert_eq!(refused(&[exit; 4097]), (Errno::E2BIG, 4096, 107));
    assert_eq!(refused(&[LENGTH[0], 0xff00_0000_0000_0000, exit]), (Errno::EINVAL, 1, 101));
    assert_eq!(refused(&[LENGTH[0], 0x0500_feff_0000_0000]), (Errno::EINVAL, 1, 2));
    assert_eq!(refused(&[exit]), (Errno::EACCES, 0, 20));
    assert_eq!(refused(&[0x7910_0010_0000_0000, exit]), (Errno::EACCES, 0, 31));
    assert_eq!(refused(&[0x1811_0000_0300_0000, 0, LENGTH[0], exit]), (Errno::EBADF, 0, 7));
    assert_eq!(tenant.prog_load(&slots(&LENGTH)), Ok(Fd(3)));
}

#[test]
fn bytes_that_are_no_whole_slots() {
    let mut host = host(1);
    let mut tenant = host.tenant(0);
    let bytes = slots(&LENGTH).as_flattened().to_vec();
    let refused = |slot, reason| Err(Error::Refused { errno: Errno::EINVAL, slot, reason });
    assert_eq!(tenant.prog_load(&bytes[..15]), refused(1, 105));
    assert_eq!(tenant.prog_load(&bytes[..7]), refused(0, 105));
    assert_eq!(tenant.prog_load(&[&bytes[..], &[0]].concat()), refused(2, 105));
    assert_eq!(tenant.prog_load(&bytes), Ok(Fd(3)));
    assert_eq!(tenant.prog_load(&&bytes[..]), Ok(Fd(4)));
}

#[test]
fn errors_are_said_in_words() {
    let refused = Error::Refused { errno: Errno::EACCES, slot: 12, reason: 29 };
    assert_eq!(refused.to_string(), "slot 12 is refused: outside a map's value (reason 29, EACCES)");
    assert_eq!(refused.errno(), Some(Errno::EACCES));
    assert_eq!(Error::Status(Errno::EBADF).to_string(), "the descriptor is not open (EBADF)");
    assert_eq!(Error::Status(Errno::EBADF).errno().map(Errno::number), Some(9));
    assert_eq!(Error::Tenants { asked: 65 }.to_string(), "a host has 1 to 64 tenants, not 65");
    assert_eq!(Error::NoMemory.to_string(), "out of memory for the host");
    assert_eq!(Error::NoMemory.errno(), None);
    let _: Box<dyn std::error::Error + Send + Sync> = Box::new(refused);
}
