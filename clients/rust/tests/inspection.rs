//! Counts, descriptors and logs of tenants, and programs that are prepared on another thread.

mod common;

use bpfhost::{Context, Cost, Errno, Error, Fd, LogStyle, MapShape, MapType, Named, Opened, Prepared};
use common::{HASH, LENGTH, host, open_counter, run, slots};

const ARRAY: MapShape = MapShape { map_type: MapType::Array, key_size: 4, value_size: 8, max_entries: 1 };

#[test]
fn a_tenant_is_counted_and_listed() {
    let mut host = host(2);
    let counter = open_counter(&mut host.tenant(1));
    let map = host.tenant(1).map_create(HASH).expect("a descriptor is free");
    let mut tenant = host.tenant(1);
    let counts = tenant.status();
    assert_eq!((counts.maps, counts.programs, counts.descriptors, counts.memory_refused), (2, 1, 3, false));
    let listed = tenant.list();
    assert_eq!(listed.len(), 3);
    // All but `r0 = 0` with its exit, and the second slot of the wide load.
    assert_eq!(listed[1], (counter, Opened::Program { slots: 13, cost: Cost { instructions: 10, calls: 1 } }));
    assert_eq!(listed[2], (map, Opened::Map { shape: HASH, entries: 0 }));
    assert_eq!((tenant.describe(Fd(6)), host.tenant(0).list().len(), host.tenant(2).status().maps), (None, 0, 0));
}

/// A call and 8 instructions on a packet of up to 10 bytes, 10 instructions on a longer one.
const BRANCHES: [u64; 16] = [
    0x6110_0000_0000_0000, // r0 = the packet's length
    0x2500_0600_0a00_0000, // if r0 > 10 goto long
    0xb702_0000_0000_0000, // r2 = 0
    0xbfa3_0000_0000_0000, // r3 = r10
    0x0703_0000_fcff_ffff, // r3 += -4
    0xb704_0000_0100_0000, // r4 = 1
    0x8500_0000_1a00_0000, // call 26
    0x9500_0000_0000_0000, // exit
    0xb700_0000_0100_0000, // long: r0 = 1
    0x0700_0000_0100_0000, // r0 += 1, six times
    0x0700_0000_0100_0000,
    0x0700_0000_0100_0000,
    0x0700_0000_0100_0000,
    0x0700_0000_0100_0000,
    0x0700_0000_0100_0000,
    0x9500_0000_0000_0000, // exit
];

#[test]
fn a_program_costs_what_its_paths_have() {
    let mut host = host(2);
    let mut tenant = host.tenant(1);
    let cost = Some(Cost { instructions: 10, calls: 1 });
    let program = tenant.prog_load(&slots(&BRANCHES)).expect("it is accepted");
    assert_eq!(tenant.program_cost(program), cost);
    assert_eq!(tenant.verify(&slots(&BRANCHES), LogStyle::New).expect("there is memory").cost(), cost);
    assert_eq!(tenant.prog_test_run(program, &Context::default(), &[0; 11]), Ok(7));
    assert_eq!(run(&mut tenant, program), 14u32.wrapping_neg());
    let map = tenant.map_create(HASH).expect("a descriptor is free");
    assert_eq!([map, Fd(0), Fd(66), Fd(u32::MAX)].map(|fd| tenant.program_cost(fd)), [None; 4]);
    tenant.close(program).expect("it is open");
    assert_eq!(tenant.program_cost(program), None);
    assert_eq!([0, 2].map(|number| host.tenant(number).program_cost(program)), [None; 2]);
}

#[test]
fn a_log_is_written() {
    let mut host = host(1);
    let mut tenant = host.tenant(0);
    for (style, front) in [(LogStyle::New, ""), (LogStyle::Whole, ""), (LogStyle::Graph, "digraph")] {
        let log = tenant.verify(&slots(&LENGTH), style).expect("there is memory");
        assert!(log.is_accepted && log.text.starts_with(front) && log.text.len() > 20);
    }
    // A log of more bytes than the first buffer has.
    let mut long = vec![[0xb7, 0, 0, 0, 0, 0, 0, 0]; 1000];
    assert!(!tenant.verify(&long, LogStyle::New).expect("there is memory").is_accepted);
    long.push([0x95, 0, 0, 0, 0, 0, 0, 0]);
    let log = tenant.verify(&long, LogStyle::New).expect("there is memory");
    assert!(log.is_accepted && log.text.len() > 4096);
    assert!(!tenant.verify(&[][..] as &[u8], LogStyle::New).expect("there is memory").is_accepted);
    assert_eq!(tenant.list(), []);
}

#[test]
fn a_program_is_prepared_on_another_thread() {
    let mut host = host(2);
    let made = std::thread::spawn(|| Prepared::new(&slots(&common::COUNTS), &[(Fd(3), Named::Map(ARRAY))]));
    let prepared = made.join().expect("it does not panic").expect("it is accepted");
    // The tenant has no such map, and the program is given back.
    let prepared = host.tenant(1).install(prepared).expect("it is no error").expect_err("it is stale");
    assert_eq!(host.tenant(1).map_create(ARRAY), Ok(Fd(3)));
    let counter = host.tenant(1).install(prepared).expect("a descriptor is free").expect("it fits");
    assert_eq!((run(&mut host.tenant(1), counter), run(&mut host.tenant(1), counter)), (1, 2));
    let unused = Prepared::new(&slots(&LENGTH), &[]).expect("it is accepted");
    assert_eq!(host.tenant(2).install(unused).expect_err("it is not served"), Error::Status(Errno::EPERM));
}

#[test]
fn a_prepared_program_is_refused_as_a_load() {
    let mut host = host(1);
    let refused = host.tenant(0).prog_load(&slots(&common::COUNTS)).expect_err("it names no map");
    assert_eq!(Prepared::new(&slots(&common::COUNTS), &[]).expect_err("nor here"), refused);
    let no_map = MapShape { key_size: 5, ..ARRAY };
    assert_eq!(
        Prepared::new(&slots(&LENGTH), &[(Fd(3), Named::Map(no_map))]).expect_err("no such map"),
        Error::Status(Errno::EINVAL)
    );
    let many = [(Fd(3), Named::Program); 65];
    assert_eq!(Prepared::new(&slots(&LENGTH), &many).expect_err("too many"), Error::Status(Errno::EINVAL));
}
