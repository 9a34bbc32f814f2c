//! Two tenants of one host in this process: a filter that counts UDP packets in place, and a hostile neighbour.
//! `examples/embed` of the repository is the same program in C, and has the filter as text.

use bpfhost::{Context, Error, Fd, Host, MapShape, MapType, Packet, Tenant};

const HONEST: u16 = 0;
const HOSTILE: u16 = 1;
const UDP: u8 = 17;
const TCP: u8 = 6;
const ICMP: u8 = 1;

/// Returns the length of a UDP packet over IPv4 over Ethernet, and counts it in the map of descriptor 3; 0 for all others.
const FILTER: [u64; 22] = [
    0xbf16_0000_0000_0000, // r6 = r1
    0xb702_0000_1700_0000, // r2 = 23
    0xbfa3_0000_0000_0000, // r3 = r10
    0x0703_0000_f8ff_ffff, // r3 += -8
    0xb704_0000_0100_0000, // r4 = 1
    0x8500_0000_1a00_0000, // call 26
    0x5500_0d00_0000_0000, // if r0 != 0 goto drop
    0x71a1_f8ff_0000_0000, // r1 = *(u8 *)(r10 - 8)
    0x5501_0b00_1100_0000, // if r1 != 17 goto drop
    0x620a_fcff_0000_0000, // *(u32 *)(r10 - 4) = 0
    0x1811_0000_0300_0000, // r1 = map_fd 3 ll
    0x0000_0000_0000_0000,
    0xbfa2_0000_0000_0000, // r2 = r10
    0x0702_0000_fcff_ffff, // r2 += -4
    0x8500_0000_0100_0000, // call 1
    0x1500_0400_0000_0000, // if r0 == 0 goto drop
    0xb701_0000_0100_0000, // r1 = 1
    0xdb10_0000_0000_0000, // lock *(u64 *)(r0 + 0) += r1
    0x6160_0000_0000_0000, // r0 = *(u32 *)(r6 + 0)
    0x9500_0000_0000_0000, // exit
    0xb700_0000_0000_0000, // drop: r0 = 0
    0x9500_0000_0000_0000, // exit
];

const READS_OUTSIDE: [u64; 2] = [
    0x7910_0010_0000_0000, // r0 = *(u64 *)(r1 + 4096)
    0x9500_0000_0000_0000, // exit
];

const NEVER_ENDS: [u64; 3] = [
    0xb700_0000_0000_0000, // r0 = 0
    0x0700_0000_0100_0000, // here: r0 += 1
    0x0500_feff_0000_0000, // goto here
];

const TAKES_THE_MAP: [u64; 4] = [
    0x1811_0000_0300_0000, // r1 = map_fd 3 ll
    0x0000_0000_0000_0000,
    0xb700_0000_0000_0000, // r0 = 0
    0x9500_0000_0000_0000, // exit
];

fn load(tenant: &mut Tenant<'_>, slots: &[u64]) -> Result<Fd, Error> {
    let slots: Vec<_> = slots.iter().map(|slot| slot.to_be_bytes()).collect();
    tenant.prog_load(&slots)
}

/// A packet as a driver may leave it, with room in front for the head of its frame.
fn received(protocol: u8) -> Packet {
    let mut packet = Packet::new(64);
    packet.bytes_mut()[12] = 0x08; // IPv4 after the addresses of Ethernet
    packet.bytes_mut()[14] = 0x45;
    packet.bytes_mut()[23] = protocol;
    packet
}

/// The packet is not copied: only the room in front of it is written to.
fn filter(tenant: &mut Tenant<'_>, prog: Fd, packet: &mut Packet) -> Result<u32, Error> {
    tenant.prog_test_run_in_place(prog, &Context::default(), packet.room_mut())
}

/// The count is eight bytes, the lowest first.
fn look_up(tenant: &mut Tenant<'_>, map: Fd) -> Result<u64, Error> {
    let value = tenant.map_lookup(map, &[0; 4])?;
    Ok(u64::from_le_bytes(value.try_into().expect("the map's values have eight bytes")))
}

fn tell<T: std::fmt::Debug>(what: &str, outcome: Result<T, Error>) {
    match outcome {
        Ok(done) => println!("  {what}: {done:?}"),
        Err(error) => println!("  {what}: {error}"),
    }
}

fn main() -> Result<(), Error> {
    let mut host = Host::new(2)?;

    println!("An honest tenant makes a map for one count and loads its filter:");
    let mut honest = host.tenant(HONEST);
    let map = honest.map_create(MapShape { map_type: MapType::Array, key_size: 4, value_size: 8, max_entries: 1 })?;
    println!("  the map: {map:?}");
    let prog = load(&mut honest, &FILTER)?;
    println!("  the filter: {prog:?}");

    println!("It filters packets that lie in memory, and keeps so many bytes:");
    for (what, protocol) in [("UDP", UDP), ("TCP", TCP), ("UDP", UDP), ("ICMP", ICMP)] {
        tell(what, filter(&mut honest, prog, &mut received(protocol)));
    }

    println!("Its neighbour is hostile, and is refused:");
    let mut hostile = host.tenant(HOSTILE);
    tell("a read outside the context", load(&mut hostile, &READS_OUTSIDE));
    tell("a loop without end", load(&mut hostile, &NEVER_ENDS));
    tell("the other tenant's map", load(&mut hostile, &TAKES_THE_MAP));
    tell("the other tenant's count", look_up(&mut hostile, map));
    tell("to close the map", hostile.close(map));

    println!("Nothing of the honest tenant has changed:");
    let mut honest = host.tenant(HONEST);
    tell("the count", look_up(&mut honest, map));
    tell("UDP", filter(&mut honest, prog, &mut received(UDP)));

    let refused = if host.memory_was_refused(HONEST) { "yes" } else { "never" };
    println!("Memory was refused to it: {refused}.");
    Ok(())
}
