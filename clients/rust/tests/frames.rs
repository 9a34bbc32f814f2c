//! Raw frames: each of any length and content has its reply.

mod common;

use bpfhost::{Errno, Error, Host, LONGEST_FRAME, LONGEST_REPLY, Reply, Update};
use common::{ARRAY, COUNTS, HASH, host, slots};

/// Numbers that are the same in each run (xorshift).
struct Numbers(u64);

impl Numbers {
    fn next(&mut self) -> u64 {
        self.0 ^= self.0 << 13;
        self.0 ^= self.0 >> 7;
        self.0 ^= self.0 << 17;
        self.0
    }

    fn below(&mut self, limit: usize) -> usize {
        (self.next() % limit as u64) as usize
    }

    /// Bytes of any length, of which half are small.
    fn bytes(&mut self) -> Vec<u8> {
        let length = match self.below(32) {
            0 => LONGEST_FRAME - 4 + self.below(9),
            1..8 => self.below(2048),
            _ => self.below(64),
        };
        (0..length).map(|_| self.next()).map(|it| if it & 1 == 0 { it >> 8 & 3 } else { it >> 8 & 255 } as u8).collect()
    }

    /// Half of them with the length of their command and zeros for its fields; mostly with a tenant and a command that are there.
    fn frame(&mut self) -> Vec<u8> {
        let (command, length) =
            [(0, 24), (1, 12), (2, 28), (3, 12), (4, 8), (5, 24), (10, 60), (256, 8)][self.below(8)];
        let mut frame = if self.below(2) == 0 { vec![0; length] } else { self.bytes() };
        if self.below(16) != 0 && frame.len() >= 8 {
            frame[..2].copy_from_slice(&(self.below(3) as u16).to_le_bytes());
            frame[2..4].copy_from_slice(&(command as u16).to_le_bytes());
            frame[4..8].copy_from_slice(&(3 + self.below(4) as u32).to_le_bytes());
        }
        frame
    }
}

/// Something to meet for frames of two tenants.
fn host_with_maps() -> Host {
    let mut host = host(2);
    for number in 0..2 {
        let mut tenant = host.tenant(number);
        tenant.map_create(ARRAY).unwrap();
        let hash = tenant.map_create(HASH).unwrap();
        tenant.map_update(hash, Update::Any, b"key1", b"value001").unwrap();
        tenant.prog_load(&slots(&COUNTS)).unwrap();
    }
    host
}

fn check(reply: Reply<'_>, frame: &[u8]) {
    let bytes = reply.bytes();
    assert!((12..=LONGEST_REPLY).contains(&bytes.len()));
    assert_eq!(bytes[..4], (bytes.len() as u32 - 4).to_le_bytes());
    assert_eq!(reply.payload().len(), bytes.len() - 12);
    let head = frame.first_chunk::<4>().unwrap_or(&[0xff; 4]);
    assert_eq!(bytes[4..8], head[..]);
    assert_eq!(u32::from(reply.tenant()) | u32::from(reply.command()) << 16, u32::from_le_bytes(*head));
    assert_eq!(reply.done().is_ok(), reply.status() >= 0);
}

#[test]
fn random_frames_have_a_reply_each() {
    let mut numbers = Numbers(88172645463325252);
    let mut done = 0;
    for _ in 0..100 {
        let mut host = host_with_maps();
        for _ in 0..100 {
            let frame = numbers.frame();
            let reply = host.handle(&frame);
            check(reply, &frame);
            done += u32::from(reply.status() >= 0);
        }
    }
    assert!(done > 500, "{done} are done");
}

#[test]
fn frames_shorter_than_a_head_and_longer_than_the_longest() {
    let mut host = host(1);
    let longer = vec![0; 4 * LONGEST_FRAME];
    for frame in [&[][..], &[0; 3], &[0; 4], &longer[..LONGEST_FRAME], &longer[..LONGEST_FRAME + 1], &longer] {
        let errno = if frame.len() > LONGEST_FRAME { Errno::E2BIG } else { Errno::EINVAL };
        let reply = host.handle(frame);
        check(reply, frame);
        assert_eq!(reply.done(), Err(Error::Status(errno)));
    }
}

#[test]
fn a_reply_may_be_as_long_as_the_longest() {
    let mut host = host(1);
    let shape = bpfhost::MapShape { value_size: 4096, max_entries: 1, ..ARRAY };
    let map = host.tenant(0).map_create(shape).unwrap();
    let mut look_up = vec![0, 0, 1, 0, map.0 as u8, 0, 0, 0];
    look_up.extend([0; 4]);
    assert_eq!(host.handle(&look_up).bytes().len(), LONGEST_REPLY);
    assert_eq!(host.handle(&look_up).payload(), [0; 4096]);
}
