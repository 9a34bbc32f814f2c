//! Batches that a bound on instructions makes shorter, compared with whole ones.

mod common;

use bpfhost::{Context, Errno, Error, Fd, Host, Tenant};
use common::{host, open_counter, run};

/// What results are before a call.
const BEFORE: u32 = 0x5a5a_5a5a;

/// What a run of the counter of `open_counter` counts for: ten instructions, and a call of a helper.
const COST: u64 = 10 + 128;

const PACKETS: usize = 7;

/// A host, its counter, and the bytes and ends of packets of one byte each.
fn counter() -> (Host, Fd, Vec<u8>, Vec<usize>) {
    let mut host = host(2);
    let prog = open_counter(&mut host.tenant(1));
    (host, prog, vec![1; PACKETS], (1..=PACKETS).collect())
}

/// The results of a batch that a bound allows so many packets: counts from the next one on, and the rest as it was.
fn results(first: u32, ran: usize) -> Vec<u32> {
    (0..PACKETS).map(|at| if at < ran { first + at as u32 } else { BEFORE }).collect()
}

#[test]
fn as_many_packets_are_run_as_fit() {
    let (mut host, prog, bytes, ends) = counter();
    let contexts = vec![Context::default(); PACKETS];
    let mut tenant = host.tenant(1);
    for (bound, wanted) in
        [(1, 1), (COST, 1), (2 * COST - 1, 1), (2 * COST, 2), (6 * COST + 9, 6), (7 * COST, 7), (u64::MAX, 7), (0, 7)]
    {
        let first = run(&mut tenant, prog) + 1;
        let mut found = vec![BEFORE; PACKETS];
        assert_eq!(tenant.run_bounded(prog, &contexts, bytes.chunks(1), bound, &mut found), Ok(wanted));
        assert_eq!(found, results(first, wanted));
        found.fill(BEFORE);
        assert_eq!(tenant.run_bounded_in_place(prog, &contexts[..1], &bytes, &ends, bound, &mut found), Ok(wanted));
        assert_eq!(found, results(first + wanted as u32, wanted));
        assert_eq!(run(&mut tenant, prog), first + 2 * wanted as u32);
    }
}

#[test]
fn later_packets_are_not_looked_at() {
    let (mut host, prog, bytes, mut ends) = counter();
    let mut tenant = host.tenant(1);
    ends[2] = PACKETS + 1;
    let refused = Err(Error::Status(Errno::EINVAL));
    let mut run = |bound, results: &mut [u32]| {
        tenant.run_bounded_in_place(prog, &Context::default(), &bytes, &ends, bound, results)
    };
    let mut found = vec![BEFORE; PACKETS];
    assert_eq!(run(2 * COST, &mut found), Ok(2));
    assert_eq!(found, results(1, 2));
    assert_eq!(run(3 * COST, &mut found), refused);
    assert_eq!(run(0, &mut found), refused);
    assert_eq!(found, results(1, 2));
}

#[test]
fn errors_are_those_of_whole_batches() {
    let (mut host, prog, bytes, ends) = counter();
    let context = Context::default();
    let mut found = vec![BEFORE; PACKETS];
    let mut refused = |tenant: &mut Tenant<'_>, prog, contexts: &[Context], wanted| {
        assert_eq!(
            tenant.run_bounded_in_place(prog, contexts, &bytes, &ends, 1, &mut found),
            Err(Error::Status(wanted))
        );
        assert_eq!(found, [BEFORE; PACKETS]);
    };
    refused(&mut host.tenant(2), prog, &[context], Errno::EPERM);
    refused(&mut host.tenant(1), Fd(9), &[context], Errno::EBADF);
    refused(&mut host.tenant(1), Fd(3), &[context], Errno::EINVAL);
    refused(&mut host.tenant(1), prog, &[context; 2], Errno::EINVAL);
    let mut few = [BEFORE; 2];
    let room = host.tenant(1).run_bounded(prog, &context, bytes.chunks(1), 1, &mut few);
    assert_eq!((room, few), (Err(Error::Room { results: 2 }), [BEFORE; 2]));
    assert_eq!(run(&mut host.tenant(1), prog), 1);
}
