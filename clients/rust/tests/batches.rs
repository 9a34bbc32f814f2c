//! Many packets by one call, compared with test runs of the same packets one after another.

mod common;

use bpfhost::{Context, Errno, Error, Fd, Host, LONGEST_FRAME, Packet, Tenant};
use common::{ARRAY, LENGTH, host, open_counter, run, slots};
use std::alloc::{GlobalAlloc, Layout, System};
use std::cell::Cell;
use std::io::IoSlice;

/// Adds the packet's first byte (0 if it has none), its length and the context's mark to the value under index 0 of the array of
/// descriptor 3, and returns the sum.
const SUMS: [u64; 24] = [
    0xbf16_0000_0000_0000, // r6 = r1
    0x7a0a_f8ff_0000_0000, // *(u64 *)(r10 - 8) = 0
    0xb702_0000_0000_0000, // r2 = 0
    0xbfa3_0000_0000_0000, // r3 = r10
    0x0703_0000_f8ff_ffff, // r3 += -8
    0xb704_0000_0100_0000, // r4 = 1
    0x8500_0000_1a00_0000, // call 26
    0x620a_f4ff_0000_0000, // *(u32 *)(r10 - 12) = 0
    0x1811_0000_0300_0000, // r1 = map_fd 3 ll
    0x0000_0000_0000_0000,
    0xbfa2_0000_0000_0000, // r2 = r10
    0x0702_0000_f4ff_ffff, // r2 += -12
    0x8500_0000_0100_0000, // call 1
    0x5500_0200_0000_0000, // if r0 != 0 goto there
    0xb700_0000_0000_0000, // r0 = 0
    0x9500_0000_0000_0000, // exit
    0x79a1_f8ff_0000_0000, // there: r1 = *(u64 *)(r10 - 8)
    0x6162_0000_0000_0000, // r2 = *(u32 *)(r6 + 0)
    0x0f21_0000_0000_0000, // r1 += r2
    0x6162_0800_0000_0000, // r2 = *(u32 *)(r6 + 8)
    0x0f21_0000_0000_0000, // r1 += r2
    0xdb10_0000_0000_0000, // lock *(u64 *)(r0 + 0) += r1
    0x7900_0000_0000_0000, // r0 = *(u64 *)(r0 + 0)
    0x9500_0000_0000_0000, // exit
];

const CONTEXT: Context = Context {
    pkt_type: 0,
    mark: 1000,
    queue_mapping: 0,
    protocol: 8,
    vlan_present: 0,
    vlan_tci: 0,
    vlan_proto: 0,
    priority: 0,
    ingress_ifindex: 0,
    ifindex: 2,
};

/// What results are before a call.
const BEFORE: u32 = 0x5a5a_5a5a;

/// A tenant's array, descriptor 3, and the program that sums in it.
fn open_sums(tenant: &mut Tenant<'_>) -> Fd {
    assert_eq!(tenant.map_create(ARRAY), Ok(Fd(3)));
    tenant.prog_load(&slots(&SUMS)).expect("it is accepted")
}

fn values(tenant: &mut Tenant<'_>) -> [Vec<u8>; 2] {
    [0u32, 1].map(|index| tenant.map_lookup(Fd(3), &index.to_le_bytes()).expect("the array has it").to_vec())
}

/// Packets with other bytes and lengths each, the longest and empty ones among them.
fn packets() -> Vec<Vec<u8>> {
    let lengths = [0, 1, 60, 1500, 0, 0, 65_536, 9000, 1, 65_536, 0];
    lengths.iter().enumerate().map(|(at, length)| vec![251 - 7 * at as u8; *length]).collect()
}

/// Packets one after another, and their ends.
fn in_one_piece(packets: &[Vec<u8>]) -> (Vec<u8>, Vec<usize>) {
    let mut bytes = Vec::new();
    let end = |packet: &Vec<u8>| {
        bytes.extend_from_slice(packet);
        bytes.len()
    };
    let ends = packets.iter().map(end).collect();
    (bytes, ends)
}

#[test]
fn results_and_maps_are_those_of_single_runs() {
    let packets = packets();
    let (bytes, ends) = in_one_piece(&packets);
    let mut hosts = [host(2), host(2), host(2)];
    let [single, copied, in_place] = &mut hosts;
    let prog = [&mut *single, copied, in_place].map(|host| open_sums(&mut host.tenant(1)))[0];
    for round in 1..=3 {
        let wanted: Vec<u32> = (packets.iter())
            .map(|packet| single.tenant(1).prog_test_run(prog, &CONTEXT, packet).expect("it is a program"))
            .collect();
        let mut results = vec![BEFORE; packets.len() + 2];
        assert_eq!(copied.tenant(1).run_packets(prog, &CONTEXT, &packets, &mut results), Ok(packets.len()));
        assert_eq!(results, [&wanted[..], &[BEFORE; 2]].concat());
        let mut results = vec![BEFORE; packets.len() + 2];
        assert_eq!(in_place.tenant(1).run_packets_in_place(prog, &CONTEXT, &bytes, &ends, &mut results), Ok(()));
        assert_eq!(results, [&wanted[..], &[BEFORE; 2]].concat());

        let first_bytes: usize = packets.iter().filter_map(|packet| packet.first()).map(|it| usize::from(*it)).sum();
        let sum = round * (first_bytes + bytes.len() + 1000 * packets.len()) as u64;
        let after = [sum.to_le_bytes().to_vec(), vec![0; 8]];
        for host in [&mut *single, copied, in_place] {
            assert_eq!(values(&mut host.tenant(1)), after);
        }
    }
}

/// A context of its own for each packet.
fn contexts(count: usize) -> Vec<Context> {
    (0..count as u32).map(|at| Context { mark: 1_000_003 * (at + 1), ifindex: at, ..CONTEXT }).collect()
}

#[test]
fn each_packet_may_have_a_context() {
    let packets = packets();
    let (bytes, ends) = in_one_piece(&packets);
    let contexts = contexts(packets.len());
    let mut hosts = [host(2), host(2), host(2)];
    let [single, copied, in_place] = &mut hosts;
    let prog = [&mut *single, copied, in_place].map(|host| open_sums(&mut host.tenant(1)))[0];
    let wanted: Vec<u32> = (packets.iter().zip(&contexts))
        .map(|(packet, context)| single.tenant(1).prog_test_run(prog, context, packet).expect("it is a program"))
        .collect();
    let mut results = vec![BEFORE; packets.len()];
    assert_eq!(copied.tenant(1).run_packets(prog, &contexts, &packets, &mut results), Ok(packets.len()));
    assert_eq!(results, wanted);
    results.fill(BEFORE);
    assert_eq!(in_place.tenant(1).run_packets_in_place(prog, &contexts[..], &bytes, &ends, &mut results), Ok(()));
    assert_eq!(results, wanted);
    let after = values(&mut single.tenant(1));
    assert_eq!([copied, in_place].map(|host| values(&mut host.tenant(1))), [after.clone(), after]);
}

#[test]
fn one_context_is_for_all_packets() {
    let (mut host, prog) = two_tenants();
    let mut results = [BEFORE; 3];
    let mut tenant = host.tenant(0);
    assert_eq!(tenant.run_packets(prog, &CONTEXT, [b"a"; 3], &mut results), Ok(3));
    let shared = results;
    let (mut host, prog) = two_tenants();
    assert_eq!(host.tenant(0).run_packets(prog, &[CONTEXT], [b"a"; 3], &mut results), Ok(3));
    assert_eq!(results, shared);
}

#[test]
fn another_number_of_contexts_is_refused() {
    let (mut host, prog) = two_tenants();
    let before = values(&mut host.tenant(0));
    let contexts = contexts(4);
    for count in [0, 2, 4] {
        let mut results = [BEFORE; 4];
        let refused = host.tenant(0).run_packets(prog, &contexts[..count], [b"a"; 3], &mut results);
        assert_eq!(refused, Err(Error::Status(Errno::EINVAL)));
        let refused = host.tenant(0).run_packets_in_place(prog, &contexts[..count], b"abc", &[1, 2, 3], &mut results);
        assert_eq!(refused, Err(Error::Status(Errno::EINVAL)));
        assert_eq!(results, [BEFORE; 4]);
    }
    assert_eq!(values(&mut host.tenant(0)), before);
    // Before it come the errors of the descriptor, and after it those of packets.
    let too_long = vec![0; 65_537];
    let mut results = [BEFORE; 1];
    for (fd, count, wanted) in [(Fd(9), 2, Errno::EBADF), (prog, 2, Errno::EINVAL), (prog, 1, Errno::E2BIG)] {
        let refused = host.tenant(0).run_packets(fd, &contexts[..count], [&too_long], &mut results);
        assert_eq!(refused, Err(Error::Status(wanted)));
    }
    let none: [&[u8]; 0] = [];
    assert_eq!(host.tenant(0).run_packets(prog, &contexts[..0], none, &mut results), Ok(0));
    assert_eq!(results, [BEFORE; 1]);
}

#[test]
fn packets_come_from_whatever_yields_bytes() {
    let mut host = host(1);
    let mut tenant = host.tenant(0);
    let prog = tenant.prog_load(&slots(&LENGTH)).unwrap();
    let context = Context::default();
    let mut results = [BEFORE; 3];
    let vectors = [vec![1; 3], vec![], vec![2; 5]];
    assert_eq!(tenant.run_packets(prog, &context, &vectors, &mut results), Ok(3));
    assert_eq!(results, [3, 0, 5]);
    assert_eq!(tenant.run_packets(prog, &context, vectors, &mut results), Ok(3));
    assert_eq!(results, [3, 0, 5]);
    assert_eq!(tenant.run_packets(prog, &context, [&b"to"[..], b"a"], &mut results), Ok(2));
    assert_eq!(results, [2, 1, 5]);
    assert_eq!(tenant.run_packets(prog, &context, [[0; 7]; 3], &mut results), Ok(3));
    assert_eq!(results, [7; 3]);
    let buffers = [IoSlice::new(b"four"), IoSlice::new(b"")];
    assert_eq!(tenant.run_packets(prog, &context, buffers.iter().map(|it| &it[..]), &mut results), Ok(2));
    assert_eq!(results, [4, 0, 7]);
    let owned = [Packet::new(9), Packet::new(0), Packet::new(1)];
    assert_eq!(tenant.run_packets(prog, &context, owned.iter().map(Packet::bytes), &mut results), Ok(3));
    assert_eq!(results, [9, 0, 1]);
    assert_eq!(tenant.run_packets(prog, &context, b"123456".chunks(4), &mut results), Ok(2));
    assert_eq!(results, [4, 2, 1]);
}

#[test]
fn bytes_behind_the_last_end_are_of_no_packet() {
    let mut host = host(1);
    let mut tenant = host.tenant(0);
    let prog = tenant.prog_load(&slots(&LENGTH)).unwrap();
    let mut results = [BEFORE; 2];
    let context = Context::default();
    assert_eq!(tenant.run_packets_in_place(prog, &context, &[0; 100_000], &[8, 11], &mut results), Ok(()));
    assert_eq!(results, [8, 3]);
}

#[test]
fn no_packets_at_all() {
    let mut host = host(1);
    let mut tenant = host.tenant(0);
    let prog = open_counter(&mut tenant);
    let context = Context::default();
    let none: [&[u8]; 0] = [];
    for mut results in [vec![], vec![BEFORE; 3]] {
        let before = results.clone();
        assert_eq!(tenant.run_packets(prog, &context, none, &mut results), Ok(0));
        assert_eq!(tenant.run_packets_in_place(prog, &context, &[], &[], &mut results), Ok(()));
        assert_eq!(tenant.run_packets_in_place(prog, &context, b"bytes", &[], &mut results), Ok(()));
        assert_eq!(results, before);
        // The descriptor is looked at all the same.
        let refused = Err(Error::Status(Errno::EBADF));
        assert_eq!(tenant.run_packets(Fd(40), &context, none, &mut results), refused);
    }
    assert_eq!(run(&mut tenant, prog), 1);
}

/// Two tenants, each with its map, descriptor 3, and a program that has summed something in it.
fn two_tenants() -> (Host, Fd) {
    let mut host = host(2);
    let progs = [0, 1].map(|number| {
        let mut tenant = host.tenant(number);
        let prog = open_sums(&mut tenant);
        tenant.prog_test_run(prog, &CONTEXT, &[number as u8]).expect("it is a program");
        prog
    });
    assert_eq!(progs[0], progs[1]);
    (host, progs[0])
}

/// Each form returns an error, and changes nothing. Ends that are out of order or after the bytes have no packets to be copied.
fn refuses(number: u16, prog: Fd, bytes: &[u8], ends: &[usize], wanted: Error) {
    let (mut host, _) = two_tenants();
    let before = [0, 1].map(|number| values(&mut host.tenant(number)));
    let mut results = [BEFORE; 4];
    let refused = host.tenant(number).run_packets_in_place(prog, &CONTEXT, bytes, ends, &mut results);
    assert_eq!(refused, Err(wanted));
    let starts = [0].iter().chain(ends);
    let packets: Option<Vec<&[u8]>> = starts.zip(ends).map(|(start, end)| bytes.get(*start..*end)).collect();
    if let Some(packets) = packets {
        assert_eq!(host.tenant(number).run_packets(prog, &CONTEXT, packets, &mut results), Err(wanted));
    }
    assert_eq!(results, [BEFORE; 4]);
    assert_eq!([0, 1].map(|number| values(&mut host.tenant(number))), before);
}

#[test]
fn what_is_refused_is_refused_before_the_first_packet() {
    let (_, prog) = two_tenants();
    let long = vec![1; 3 * LONGEST_FRAME];
    let (most, unserved, map) = (65_536, 2, Fd(3));
    let status = Error::Status;
    for fd in [0, 2, 5, 66, 67, u32::MAX].map(Fd) {
        refuses(1, fd, &long, &[1, 2, 3], status(Errno::EBADF));
    }
    refuses(1, map, &long, &[1, 2, 3], status(Errno::EINVAL));
    for number in [unserved, u16::MAX] {
        refuses(number, prog, &long, &[1, 2, 3], status(Errno::EPERM));
    }
    // Too long, as the first packet and as a later one.
    for length in [most + 1, LONGEST_FRAME - 1, LONGEST_FRAME, LONGEST_FRAME + 1, 2 * LONGEST_FRAME] {
        refuses(1, prog, &long, &[length], status(Errno::E2BIG));
        refuses(1, prog, &long, &[7, 7 + length, 8 + length], status(Errno::E2BIG));
    }
    // Out of order, and after the bytes.
    refuses(1, prog, &long, &[3, 2, 8], status(Errno::EINVAL));
    refuses(1, prog, &long, &[3, 8, 0], status(Errno::EINVAL));
    refuses(1, prog, b"12345678", &[2, 9], status(Errno::EINVAL));
    refuses(1, prog, b"", &[1], status(Errno::EINVAL));
    refuses(1, prog, b"12345678", &[2, usize::MAX], status(Errno::EINVAL));
    refuses(1, prog, b"12345678", &[1 << (usize::BITS - 1)], status(Errno::EINVAL));
}

#[test]
fn the_first_error_is_told() {
    let (_, prog) = two_tenants();
    let (long, map) = (vec![1; 2 * LONGEST_FRAME], Fd(3));
    let too_long = 65_537;
    refuses(2, Fd(9), &long, &[too_long, 0], Error::Status(Errno::EPERM));
    refuses(1, Fd(9), &long, &[too_long, 0], Error::Status(Errno::EBADF));
    refuses(1, map, &long, &[too_long, 0], Error::Status(Errno::EINVAL));
    refuses(1, prog, &long, &[too_long, 0], Error::Status(Errno::E2BIG));
    refuses(1, prog, &long, &[2, 0, too_long], Error::Status(Errno::EINVAL));
    // A room that is too small comes before all others.
    refuses(2, Fd(9), &long, &[0, 0, 0, 0, too_long], Error::Room { results: 4 });
}

#[test]
fn a_room_for_too_few_results() {
    let (mut host, prog) = two_tenants();
    let before = values(&mut host.tenant(0));
    for room in 0..3 {
        let wanted = Error::Room { results: room };
        let mut results = vec![BEFORE; room];
        let mut tenant = host.tenant(0);
        assert_eq!(tenant.run_packets(prog, &CONTEXT, [b"a", b"b", b"c"], &mut results), Err(wanted));
        let refused = tenant.run_packets_in_place(prog, &CONTEXT, b"abc", &[1, 2, 3], &mut results);
        assert_eq!(refused, Err(wanted));
        // One packet too many is asked for, and no other.
        let mut asked = 0;
        let endless = std::iter::from_fn(|| {
            asked += 1;
            Some(b"packet")
        });
        assert_eq!(tenant.run_packets(prog, &CONTEXT, endless, &mut results), Err(wanted));
        assert_eq!(asked, room + 1);
        assert_eq!(results, vec![BEFORE; room]);
    }
    assert_eq!(values(&mut host.tenant(0)), before);
    let wanted = Error::Room { results: 2 };
    assert_eq!(wanted.to_string(), "there is room for 2 results, and there are more packets");
    assert_eq!(wanted.errno(), None);
}

#[test]
fn other_tenants_are_unchanged() {
    let (mut host, prog) = two_tenants();
    let before = values(&mut host.tenant(0));
    let mut results = [BEFORE; 3];
    assert_eq!(host.tenant(1).run_packets(prog, &CONTEXT, [b"a", b"b", b"c"], &mut results), Ok(3));
    assert_eq!(host.tenant(1).run_packets_in_place(prog, &CONTEXT, b"abc", &[1, 2, 3], &mut results), Ok(()));
    // The tenant had 0 + 1 + 1 + 1000 before, as tenant 0 has without its number.
    let each = 1 + 1000;
    let sum = 1 + each + 2 * (u64::from(b'a') + u64::from(b'b') + u64::from(b'c') + 3 * each);
    assert_eq!(values(&mut host.tenant(1))[0], sum.to_le_bytes());
    assert_eq!(results[2], sum as u32);
    assert_eq!(values(&mut host.tenant(0)), before);
    assert_eq!(before[0], each.to_le_bytes());
    // Nor does one that has no program there run another's.
    assert_eq!(host.tenant(0).close(prog), Ok(()));
    let refused = host.tenant(0).run_packets(prog, &CONTEXT, [b"a"], &mut results);
    assert_eq!(refused, Err(Error::Status(Errno::EBADF)));
    assert_eq!(values(&mut host.tenant(1))[0], sum.to_le_bytes());
    assert!(!host.memory_was_refused(0) && !host.memory_was_refused(1));
}

/// Counts the bytes that a thread takes. The library asks malloc itself, and is not counted.
struct Counting;

thread_local! {
    static TAKEN: Cell<usize> = const { Cell::new(0) };
}

// SAFETY: the system's allocator does all that is asked for.
unsafe impl GlobalAlloc for Counting {
    unsafe fn alloc(&self, layout: Layout) -> *mut u8 {
        TAKEN.set(TAKEN.get() + layout.size());
        // SAFETY: the caller owes the same.
        unsafe { System.alloc(layout) }
    }

    unsafe fn dealloc(&self, at: *mut u8, layout: Layout) {
        // SAFETY: the caller owes the same.
        unsafe { System.dealloc(at, layout) }
    }
}

#[global_allocator]
static ALLOCATOR: Counting = Counting;

#[test]
fn memory_is_taken_by_the_first_batch_alone() {
    let mut host = host(1);
    let mut tenant = host.tenant(0);
    let prog = tenant.prog_load(&slots(&LENGTH)).unwrap();
    let mut results = [BEFORE; 512];
    let mut taken = |packets: &[Vec<u8>]| {
        let before = TAKEN.get();
        let outcome = tenant.run_packets(prog, &CONTEXT, packets, &mut results);
        (TAKEN.get() - before, outcome)
    };
    // Of a packet that is too long no more is copied than a frame has.
    let too_long = [vec![0; 64 * LONGEST_FRAME]];
    let (bytes, outcome) = taken(&too_long);
    assert_eq!(outcome, Err(Error::Status(Errno::E2BIG)));
    assert!(bytes < 2 * LONGEST_FRAME, "{bytes}");
    let packets = vec![vec![0; 1500]; 512];
    let (bytes, outcome) = taken(&packets);
    assert_eq!(outcome, Ok(512));
    assert!((512 * 1500..4 * 512 * 1500).contains(&bytes), "{bytes}");
    for fewer in [512, 100, 512, 1] {
        assert_eq!(taken(&packets[..fewer]), (0, Ok(fewer)));
    }
}
