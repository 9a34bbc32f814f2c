//! Each command, if it succeeds.

mod common;

use bpfhost::{Context, Errno, Error, Fd, Packet, TEST_RUN_HEAD, Update};
use common::{ARRAY, COUNTS, HASH, LENGTH, host, open_counter, run, slots};

#[test]
fn maps_keep_what_is_put_there() {
    let mut host = host(1);
    let mut tenant = host.tenant(0);
    let map = tenant.map_create(HASH).unwrap();
    assert_eq!(map, Fd(3));
    assert_eq!(tenant.map_update(map, Update::NoExist, b"key1", b"value001"), Ok(()));
    assert_eq!(tenant.map_update(map, Update::Any, b"key2", b"value002"), Ok(()));
    assert_eq!(tenant.map_update(map, Update::Exist, b"key1", b"value003"), Ok(()));
    assert_eq!(tenant.map_lookup(map, b"key1"), Ok(&b"value003"[..]));
    assert_eq!(tenant.map_lookup(map, b"key2"), Ok(&b"value002"[..]));
    assert_eq!(tenant.map_delete(map, b"key1"), Ok(()));
    assert_eq!(tenant.map_lookup(map, b"key1"), Err(Error::Status(Errno::ENOENT)));
}

#[test]
fn keys_come_in_their_order() {
    let mut host = host(1);
    let mut tenant = host.tenant(0);
    let map = tenant.map_create(HASH).unwrap();
    tenant.map_update(map, Update::Any, b"zzzz", &[0; 8]).unwrap();
    tenant.map_update(map, Update::Any, b"aaaa", &[0; 8]).unwrap();
    assert_eq!(tenant.map_get_next_key(map, None), Ok(&b"zzzz"[..]));
    assert_eq!(tenant.map_get_next_key(map, Some(b"gone")), Ok(&b"zzzz"[..]));
    assert_eq!(tenant.map_get_next_key(map, Some(b"zzzz")), Ok(&b"aaaa"[..]));
    assert_eq!(tenant.map_get_next_key(map, Some(b"aaaa")), Err(Error::Status(Errno::ENOENT)));
}

#[test]
fn arrays_have_all_their_entries() {
    let mut host = host(1);
    let mut tenant = host.tenant(0);
    let map = tenant.map_create(ARRAY).unwrap();
    assert_eq!(tenant.map_lookup(map, &1u32.to_le_bytes()), Ok(&[0; 8][..]));
    assert_eq!(tenant.map_get_next_key(map, None), Ok(&[0; 4][..]));
    assert_eq!(tenant.map_get_next_key(map, Some(&[0; 4])), Ok(&[1, 0, 0, 0][..]));
}

#[test]
fn a_run_sees_its_packet_and_its_context() {
    let mut host = host(1);
    let mut tenant = host.tenant(0);
    let prog = tenant.prog_load(&slots(&LENGTH)).unwrap();
    assert_eq!(tenant.prog_test_run(prog, &Context::default(), &[7; 1500]), Ok(1500));
    assert_eq!(tenant.prog_test_run(prog, &Context::default(), &[]), Ok(0));
    let context = Context {
        pkt_type: 1,
        mark: 2,
        queue_mapping: 3,
        protocol: 4,
        vlan_present: 5,
        vlan_tci: 6,
        vlan_proto: 7,
        priority: 8,
        ingress_ifindex: 9,
        ifindex: 10,
    };
    for word in 1..=10u32 {
        let reads = [0x6110_0000_0000_0000 | u64::from(4 * word) << 40, LENGTH[1]];
        let prog = tenant.prog_load(&slots(&reads)).unwrap();
        assert_eq!(tenant.prog_test_run(prog, &context, &[]), Ok(word));
    }
}

#[test]
fn a_packet_stays_where_it_lies() {
    let mut host = host(1);
    let mut tenant = host.tenant(0);
    let prog = tenant.prog_load(&slots(&LENGTH)).unwrap();
    let mut packet = Packet::from(&b"packet"[..]);
    assert_eq!(tenant.prog_test_run_in_place(prog, &Context::default(), packet.room_mut()), Ok(6));
    assert_eq!(packet.bytes(), b"packet");
    packet.resize(3);
    assert_eq!(tenant.prog_test_run_in_place(prog, &Context::default(), packet.room_mut()), Ok(3));
    assert_eq!(packet.bytes(), b"pac");
    let mut room = [0x5a; TEST_RUN_HEAD + 2];
    assert_eq!(tenant.prog_test_run_in_place(prog, &Context::default(), &mut room), Ok(2));
    assert_eq!(room[TEST_RUN_HEAD..], [0x5a; 2]);
}

#[test]
fn a_program_keeps_its_map() {
    let mut host = host(1);
    let mut tenant = host.tenant(0);
    let prog = open_counter(&mut tenant);
    assert_eq!(run(&mut tenant, prog), 1);
    assert_eq!(tenant.map_lookup(Fd(3), &[0; 4]), Ok(&1u64.to_le_bytes()[..]));
    assert_eq!(tenant.close(Fd(3)), Ok(()));
    assert_eq!(run(&mut tenant, prog), 2);
    assert_eq!(tenant.close(prog), Ok(()));
    assert_eq!(tenant.close(prog), Err(Error::Status(Errno::EBADF)));
}

#[test]
fn tenants_have_descriptors_of_their_own() {
    let mut host = host(2);
    let first = open_counter(&mut host.tenant(0));
    assert_eq!(host.tenant(1).map_lookup(Fd(3), &[0; 4]), Err(Error::Status(Errno::EBADF)));
    let takes_the_map = host.tenant(1).prog_load(&slots(&COUNTS));
    assert_eq!(takes_the_map, Err(Error::Refused { errno: Errno::EBADF, slot: 1, reason: 7 }));
    let second = open_counter(&mut host.tenant(1));
    assert_eq!(first, second);
    assert_eq!(run(&mut host.tenant(0), first), 1);
    assert_eq!(run(&mut host.tenant(0), first), 2);
    assert_eq!(run(&mut host.tenant(1), second), 1);
    assert_eq!(host.tenant(1).close(second), Ok(()));
    assert_eq!(run(&mut host.tenant(0), first), 3);
    assert_eq!(host.tenant(1).number(), 1);
    assert!(!host.memory_was_refused(0) && !host.memory_was_refused(1) && !host.memory_was_refused(65535));
}
