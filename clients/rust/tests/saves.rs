//! Tenants that are saved from one host and restored on another.

mod common;

use bpfhost::{Errno, Error, Fd, Host, LONGEST_PART, Update};
use common::{HASH, LENGTH, host, open_counter, run, slots};

/// A tenant with a map, a program, and a map that only the program holds: their descriptors.
fn open_all(host: &mut Host) -> (Fd, Fd) {
    let mut tenant = host.tenant(1);
    let counter = open_counter(&mut tenant);
    assert_eq!(run(&mut tenant, counter), 1);
    tenant.close(Fd(3)).expect("it is open");
    let map = tenant.map_create(HASH).expect("a descriptor is free");
    for key in [7u32, 3] {
        tenant.map_update(map, Update::Any, &key.to_le_bytes(), &u64::from(key).to_le_bytes()).expect("there is room");
    }
    (map, counter)
}

fn is_as_it_was(host: &mut Host, map: Fd, counter: Fd, count: u32) {
    let mut tenant = host.tenant(1);
    assert_eq!(tenant.map_get_next_key(map, None), Ok(&7u32.to_le_bytes()[..]));
    assert_eq!(tenant.map_lookup(map, &3u32.to_le_bytes()), Ok(&3u64.to_le_bytes()[..]));
    assert_eq!(run(&mut tenant, counter), count);
    assert_eq!(tenant.close(Fd(5)), Err(Error::Status(Errno::EBADF)));
}

#[test]
fn a_tenant_is_restored() {
    let (mut first, mut second) = (host(2), host(2));
    let (map, counter) = open_all(&mut first);
    let frames = first.tenant(1).save().expect("there is memory");
    second.tenant(1).restore(&frames).expect("each frame is done");
    is_as_it_was(&mut second, map, counter, 2);
    is_as_it_was(&mut first, map, counter, 2);
}

#[test]
fn other_tenants_are_served_between_parts() {
    let (mut first, mut second) = (host(2), host(2));
    let (map, counter) = open_all(&mut first);
    let mut part = 0;
    while let Some(frames) = first.tenant(1).save_part(part).expect("there is memory") {
        assert!(frames.len() <= LONGEST_PART);
        second.tenant(1).restore(frames).expect("each frame is done");
        first.tenant(0).map_create(HASH).expect("a descriptor is free");
        part += 1;
    }
    // The fillers, three births, the keys of two maps and the closings.
    assert_eq!(part, 7);
    is_as_it_was(&mut second, map, counter, 2);
}

#[test]
fn a_tenant_that_is_not_served_has_no_parts() {
    let mut host = host(1);
    assert_eq!(host.tenant(1).save_part(0), Ok(None));
    assert_eq!(host.tenant(1).save(), Err(Error::Status(Errno::EPERM)));
}

#[test]
fn a_full_table_has_nothing_to_close() {
    let (mut first, mut second) = (host(1), host(1));
    while first.tenant(0).prog_load(&slots(&LENGTH)).is_ok() {}
    assert_eq!(first.tenant(0).save_part(65), Ok(Some(&[][..])));
    assert_eq!(first.tenant(0).save_part(66), Ok(None));
    let frames = first.tenant(0).save().expect("there is memory");
    second.tenant(0).restore(&frames).expect("each frame is done");
    assert_eq!(second.tenant(0).map_create(HASH), Err(Error::Status(Errno::EMFILE)));
}

#[test]
fn frames_that_are_cut_or_of_another_tenant() {
    let (mut first, mut second) = (host(2), host(2));
    let (map, counter) = open_all(&mut first);
    let frames = first.tenant(1).save().expect("there is memory");
    assert_eq!(second.tenant(0).restore(&frames), Err(Error::BadFrames));
    for length in 1..28 {
        assert_eq!(second.tenant(1).restore(&frames[..length]), Err(Error::BadFrames));
    }
    assert_eq!(second.tenant(1).restore(&[]), Ok(()));
    // Nothing was handled.
    second.tenant(1).restore(&frames).expect("the tenant is new");
    is_as_it_was(&mut second, map, counter, 2);
}

#[test]
fn a_tenant_that_is_not_new() {
    let (mut first, mut second) = (host(2), host(2));
    let (map, counter) = open_all(&mut first);
    let frames = first.tenant(1).save().expect("there is memory");
    second.tenant(1).map_create(HASH).expect("a descriptor is free");
    assert_eq!(second.tenant(1).restore(&frames), Err(Error::Status(Errno::EMFILE)));
    for fd in 3..67 {
        second.tenant(1).close(Fd(fd)).expect("each is open");
    }
    second.tenant(1).restore(&frames).expect("the tenant is new again");
    is_as_it_was(&mut second, map, counter, 2);
}

#[test]
fn a_tenant_is_restored_as_another() {
    let mut first = host(2);
    let (map, counter) = open_all(&mut first);
    let mut frames = first.tenant(1).save().expect("there is memory");
    // On another host, on which it is tenant 0; then back as tenant 1.
    let mut second = host(1);
    assert_eq!(second.tenant(0).restore(&frames), Err(Error::BadFrames));
    second.tenant(0).restore_as(&frames).expect("the tenant is new");
    let again = second.tenant(0).save().expect("there is memory");
    let mut third = host(2);
    third.tenant(1).restore_as(&again).expect("the tenant is new");
    is_as_it_was(&mut third, map, counter, 2);
    // As another one of the same host.
    assert_eq!(first.tenant(0).restore_as(&frames), Ok(()));
    assert_eq!(run(&mut first.tenant(0), counter), 2);
    is_as_it_was(&mut first, map, counter, 2);
    // Whatever is wrong with the last frame, none is handled.
    let mut fourth = host(2);
    for length in [1, 7, 8, frames.len() - 1] {
        assert_eq!(fourth.tenant(0).restore_as(&frames[..length]), Err(Error::BadFrames));
    }
    let last = frames.len() - 8;
    frames[last] = 0;
    assert_eq!(fourth.tenant(0).restore_as(&frames), Err(Error::BadFrames));
    assert_eq!(fourth.tenant(0).close_all(), Ok(0));
    assert_eq!(fourth.tenant(0).restore_as(&[]), Ok(()));
    frames[last] = 1;
    fourth.tenant(0).restore_as(&frames).expect("the tenant is new");
    assert_eq!(fourth.tenant(0).restore_as(&frames), Err(Error::Status(Errno::EMFILE)));
    let mut long = vec![0; 4 + 131_073];
    long[..4].copy_from_slice(&131_073_u32.to_le_bytes());
    assert_eq!(fourth.tenant(1).restore_as(&long), Err(Error::Status(Errno::E2BIG)));
}

#[test]
fn all_descriptors_are_closed() {
    let mut first = host(2);
    open_all(&mut first);
    assert_eq!(first.tenant(1).close_all(), Ok(2));
    assert_eq!(first.tenant(1).close_all(), Ok(0));
    assert_eq!(first.tenant(2).close_all(), Err(Error::Status(Errno::EPERM)));
}
