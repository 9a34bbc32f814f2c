//! A host for each of several threads, and one host that goes from thread to thread.

mod common;

use common::{host, open_counter, run};
use std::sync::{Arc, Mutex};
use std::thread;

const THREADS: u64 = 4;
const ROUNDS: u64 = 5_000;

#[test]
fn a_host_for_each_thread() {
    let counts = || {
        let mut host = host(2);
        let prog = open_counter(&mut host.tenant(1));
        (0..ROUNDS).map(|_| run(&mut host.tenant(1), prog)).last()
    };
    let threads: Vec<_> = (0..THREADS).map(|_| thread::spawn(counts)).collect();
    for counted in threads {
        assert_eq!(counted.join().unwrap(), Some(ROUNDS as u32));
    }
}

#[test]
fn a_host_is_handed_on() {
    let mut host = host(1);
    let prog = open_counter(&mut host.tenant(0));
    for count in 1..=8 {
        host = thread::spawn(move || {
            assert_eq!(run(&mut host.tenant(0), prog), count);
            host
        })
        .join()
        .unwrap();
    }
    assert_eq!(run(&mut host.tenant(0), prog), 9);
}

#[test]
fn a_host_under_a_lock() {
    let mut host = host(1);
    let prog = open_counter(&mut host.tenant(0));
    let shared = Arc::new(Mutex::new(host));
    let counts = |shared: Arc<Mutex<bpfhost::Host>>| {
        move || (0..ROUNDS).map(|_| u64::from(run(&mut shared.lock().unwrap().tenant(0), prog))).sum::<u64>()
    };
    let threads: Vec<_> = (0..THREADS).map(|_| thread::spawn(counts(shared.clone()))).collect();
    let sum: u64 = threads.into_iter().map(|counted| counted.join().unwrap()).sum();
    // Each count from 1 on was given once.
    let all = THREADS * ROUNDS;
    assert_eq!(sum, all * (all + 1) / 2);
}
