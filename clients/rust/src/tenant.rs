use crate::library::Run;
use crate::{AsContexts, AsProgram, Context, Errno, Error, Host, Reply};
use bpfhost_sys::{
    ANY, ARRAY, CLOSE, EXIST, HASH, MAP_CREATE, MAP_DELETE, MAP_LOOKUP, MAP_NEXT_KEY, MAP_UPDATE, NOEXIST, PROG_LOAD,
    PROG_TEST_RUN, SOCKET_FILTER, TEST_RUN_HEAD,
};

/// A descriptor: what names a map or a program to the tenant that opened it. The host gives 3 to 66; another number is refused with
/// [`EBADF`](Errno::EBADF).
#[derive(Debug, Clone, Copy, PartialEq, Eq, Hash, PartialOrd, Ord)]
pub struct Fd(pub u32);

/// The kind of a map.
#[derive(Debug, Clone, Copy, PartialEq, Eq)]
#[repr(u32)]
pub enum MapType {
    /// Has no key at first. Its keys are in the order in which they were added.
    Hash = HASH,
    /// Has all its entries from the beginning, each value zero. A key is an index of four bytes, the lowest first.
    Array = ARRAY,
}

/// What a map is made of.
#[derive(Debug, Clone, Copy, PartialEq, Eq)]
pub struct MapShape {
    /// Its kind.
    pub map_type: MapType,
    /// Bytes of a key: 1 to 512; 4 in an array.
    pub key_size: u32,
    /// Bytes of a value: 1 to 4,096.
    pub value_size: u32,
    /// Its most entries: 1 to 4,096. So many values, each rounded up to a multiple of eight bytes, take 65,536 bytes at most.
    pub max_entries: u32,
}

/// Which keys an update is for.
#[derive(Debug, Clone, Copy, PartialEq, Eq)]
#[repr(u64)]
pub enum Update {
    /// All of them: BPF_ANY.
    Any = ANY,
    /// Those that are not there: BPF_NOEXIST.
    NoExist = NOEXIST,
    /// Those that are there: BPF_EXIST.
    Exist = EXIST,
}

/// One tenant of a host: no command for another tenant can be given through it.
///
/// Its functions are the commands of bpf(2), and test runs of many packets by one call. docs/PROTOCOL.md has all limits, and all
/// errors in the order in which they are tried; [`EPERM`](Errno::EPERM) comes before them, if the tenant is not served. A refused
/// command changes nothing.
#[derive(Debug)]
pub struct Tenant<'a> {
    host: &'a mut Host,
    number: u16,
}

impl<'a> Tenant<'a> {
    pub(crate) fn new(host: &'a mut Host, number: u16) -> Tenant<'a> {
        Tenant { host, number }
    }

    pub(crate) fn host(&mut self) -> &mut Host {
        self.host
    }

    /// The tenant's number.
    pub fn number(&self) -> u16 {
        self.number
    }

    /// Makes a map. The descriptor is the lowest that is free.
    ///
    /// # Errors
    ///
    /// EINVAL: a size or the number of entries is outside its limits, or an array's key is not of four bytes. E2BIG: the values
    /// take more than 65,536 bytes. EMFILE, ENOSPC, ENOMEM.
    pub fn map_create(&mut self, shape: MapShape) -> Result<Fd, Error> {
        let flags = 0;
        let fields = [shape.map_type as u32, shape.key_size, shape.value_size, shape.max_entries, flags];
        self.ask(MAP_CREATE, &[fields.map(u32::to_le_bytes).as_flattened()]).done().map(Fd)
    }

    /// The value of a key, lent until the host's next call.
    ///
    /// # Errors
    ///
    /// EBADF; EINVAL: the descriptor names a program, or the key is of another size than the map's. ENOENT: the key is not
    /// there; in an array, the index is past the end.
    pub fn map_lookup(&mut self, map: Fd, key: &[u8]) -> Result<&[u8], Error> {
        let reply = self.ask(MAP_LOOKUP, &[&map.0.to_le_bytes(), key]);
        reply.done().map(|_| reply.payload())
    }

    /// Puts a value under a key. The host takes key and value as one piece of bytes: if one is too short by as much as the other is
    /// too long, it sees no fault.
    ///
    /// # Errors
    ///
    /// EBADF; EINVAL: the descriptor names a program, or the bytes are not as many as the map's key and value have. E2BIG: the index is
    /// past the end, or the key is new and the map full. EEXIST, ENOENT: `update` excludes such a key. ENOMEM.
    pub fn map_update(&mut self, map: Fd, update: Update, key: &[u8], value: &[u8]) -> Result<(), Error> {
        let fields = [&map.0.to_le_bytes()[..], &(update as u64).to_le_bytes(), key, value];
        self.ask(MAP_UPDATE, &fields).done().map(drop)
    }

    /// Takes a key out of a hash map.
    ///
    /// # Errors
    ///
    /// EBADF; EINVAL: the descriptor names a program or an array, or the key is of another size than the map's. ENOENT.
    pub fn map_delete(&mut self, map: Fd, key: &[u8]) -> Result<(), Error> {
        self.ask(MAP_DELETE, &[&map.0.to_le_bytes(), key]).done().map(drop)
    }

    /// The key that follows, lent until the host's next call: after no key, and after one that is not there, the first.
    ///
    /// # Errors
    ///
    /// EBADF; EINVAL: the descriptor names a program, or the key is of another size than the map's. ENOENT: no key follows.
    pub fn map_get_next_key(&mut self, map: Fd, key: Option<&[u8]>) -> Result<&[u8], Error> {
        let reply = self.ask(MAP_NEXT_KEY, &[&map.0.to_le_bytes(), key.unwrap_or_default()]);
        reply.done().map(|_| reply.payload())
    }

    /// Loads a socket filter of 1 to 4,096 slots, in the bytes of RFC 9669 as a little-endian machine has them: as slots of eight bytes
    /// each, or as plain bytes. It keeps the maps that its slots name. The descriptor is the lowest that is free.
    ///
    /// ```
    /// # use bpfhost::{Context, Error, Host};
    /// # let mut host = Host::new(1)?;
    /// # let mut tenant = host.tenant(0);
    /// // r0 = the packet's length; exit
    /// let bytes: &[u8] = &[0x61, 0x10, 0, 0, 0, 0, 0, 0, 0x95, 0, 0, 0, 0, 0, 0, 0];
    /// let slots = [[0x61, 0x10, 0, 0, 0, 0, 0, 0], [0x95, 0, 0, 0, 0, 0, 0, 0]];
    /// for prog in [tenant.prog_load(bytes)?, tenant.prog_load(&slots)?] {
    ///     assert_eq!(tenant.prog_test_run(prog, &Context::default(), b"a packet")?, 8);
    /// }
    /// # Ok::<(), Error>(())
    /// ```
    ///
    /// # Errors
    ///
    /// [`Error::Refused`] has the first slot that breaks a rule, and the rule; bytes that are no whole slots break one. EMFILE, ENOMEM.
    pub fn prog_load(&mut self, program: &(impl AsProgram + ?Sized)) -> Result<Fd, Error> {
        self.ask(PROG_LOAD, &[&SOCKET_FILTER.to_le_bytes(), program.as_program()]).done().map(Fd)
    }

    /// Runs a program on a packet of 65,536 bytes at most, and gives the low 32 bits of its result. The packet is copied into the frame;
    /// [`prog_test_run_in_place`](Tenant::prog_test_run_in_place) copies none.
    ///
    /// # Errors
    ///
    /// EBADF; EINVAL: the descriptor names a map. E2BIG: the packet is too long.
    pub fn prog_test_run(&mut self, prog: Fd, context: &Context, packet: &[u8]) -> Result<u32, Error> {
        let head = context.head(self.number, prog.0);
        let reply = self.ask(PROG_TEST_RUN, &[&head[4..], packet]);
        reply.done().map(|_| reply.result())
    }

    /// Runs a program on a packet in place: after the first [`TEST_RUN_HEAD`] bytes of `room`, which are overwritten. The packet
    /// stays as it is. [`Packet`](crate::Packet) has such a room.
    ///
    /// # Errors
    ///
    /// As [`prog_test_run`](Tenant::prog_test_run); and EINVAL: the room is shorter than [`TEST_RUN_HEAD`] bytes, which stay then.
    pub fn prog_test_run_in_place(&mut self, prog: Fd, context: &Context, room: &mut [u8]) -> Result<u32, Error> {
        let head = room.first_chunk_mut::<TEST_RUN_HEAD>().ok_or(Error::Status(Errno::EINVAL))?;
        *head = context.head(self.number, prog.0);
        let reply = self.host.handle(room);
        reply.done().map(|_| reply.result())
    }

    /// Runs a program on many packets by one call of the library, one after another, with one context for all or one for each. Results,
    /// maps and all else afterwards are those of [`prog_test_run`](Tenant::prog_test_run) on each of them in this order. The result of
    /// each is written to the front of `results`, whose rest stays as it is. Returns how many packets there were.
    ///
    /// The packets are copied one after another into memory that the host keeps, so that later calls allocate only for more bytes or
    /// packets than before. [`run_packets_in_place`](Tenant::run_packets_in_place) copies none.
    ///
    /// ```
    /// # use bpfhost::{Context, Error, Host};
    /// # use std::io::IoSlice;
    /// # /// r0 = the packet's length; exit
    /// # const LENGTH: [u64; 2] = [0x6110_0000_0000_0000, 0x9500_0000_0000_0000];
    /// # let mut host = Host::new(1)?;
    /// # let mut tenant = host.tenant(0);
    /// # let prog = tenant.prog_load(&LENGTH.map(u64::to_be_bytes))?;
    /// // The program returns the packet's length.
    /// let mut results = [0; 64];
    /// let count = tenant.run_packets(prog, &Context::default(), [&b"one"[..], b"", b"three"], &mut results)?;
    /// assert_eq!(results[..count], [3, 0, 5]);
    ///
    /// // Slices for vectored input and output, as they were received.
    /// let received = [IoSlice::new(b"four"), IoSlice::new(b"fifth")];
    /// let packets = received.iter().map(|packet| &packet[..]);
    /// let count = tenant.run_packets(prog, &Context::default(), packets, &mut results)?;
    /// assert_eq!(results[..count], [4, 5]);
    /// # Ok::<(), Error>(())
    /// ```
    ///
    /// # Errors
    ///
    /// First of all [`Error::Room`]: `results` has room for fewer results than there are packets, of which no more than one too many
    /// is asked for. EBADF; EINVAL: the descriptor names a map, or there is neither one context nor one for each packet. E2BIG: a packet has
    /// more than 65,536 bytes. Then no packet was run, and `results` is as it was.
    pub fn run_packets(
        &mut self,
        prog: Fd,
        contexts: &(impl AsContexts + ?Sized),
        packets: impl IntoIterator<Item: AsRef<[u8]>>,
        results: &mut [u32],
    ) -> Result<usize, Error> {
        self.host.run_packets(self.run(prog, 0), contexts.as_contexts(), packets, results)
    }

    /// Runs a program on many packets in place, one after another in `bytes`: the first begins at 0, and packet i ends before
    /// byte `ends[i]`, at which the next one begins. All else is as in [`run_packets`](Tenant::run_packets).
    ///
    /// ```
    /// # use bpfhost::{Context, Error, Host};
    /// # /// r0 = the packet's length; exit
    /// # const LENGTH: [u64; 2] = [0x6110_0000_0000_0000, 0x9500_0000_0000_0000];
    /// # let mut host = Host::new(1)?;
    /// # let mut tenant = host.tenant(0);
    /// # let prog = tenant.prog_load(&LENGTH.map(u64::to_be_bytes))?;
    /// // The program returns the packet's length.
    /// let mut results = [0; 3];
    /// tenant.run_packets_in_place(prog, &Context::default(), b"onethree", &[3, 3, 8], &mut results)?;
    /// assert_eq!(results, [3, 0, 5]);
    /// # Ok::<(), Error>(())
    /// ```
    ///
    /// # Errors
    ///
    /// As [`run_packets`](Tenant::run_packets); and EINVAL: a packet ends before it begins, or after the bytes. The first packet that
    /// is wrong determines the error.
    pub fn run_packets_in_place(
        &mut self,
        prog: Fd,
        contexts: &(impl AsContexts + ?Sized),
        bytes: &[u8],
        ends: &[usize],
        results: &mut [u32],
    ) -> Result<(), Error> {
        self.host.run_packets_in_place(self.run(prog, 0), contexts.as_contexts(), bytes, ends, results).map(drop)
    }

    /// Runs a program on packets as [`run_packets`](Tenant::run_packets), but no longer than the caller allows: on as many of the first ones
    /// as can be run by `bound` instructions, if each takes the most instructions and calls of the program ([`Cost`](crate::Cost)), which no
    /// run exceeds, and a call of a helper counts as 128 instructions more. One packet is run in any case, and 0 is no bound. Returns how
    /// many packets were run; later ones are not looked at, and the rest of `results`, which has room for all, stays as it is.
    ///
    /// ```
    /// # use bpfhost::{Context, Error, Host};
    /// # /// r0 = the packet's length; exit
    /// # const LENGTH: [u64; 2] = [0x6110_0000_0000_0000, 0x9500_0000_0000_0000];
    /// # let mut host = Host::new(1)?;
    /// # let mut tenant = host.tenant(0);
    /// # let prog = tenant.prog_load(&LENGTH.map(u64::to_be_bytes))?;
    /// // The program returns the packet's length, by two instructions.
    /// let packets = [&b"one"[..], b"", b"three"];
    /// let (mut done, mut results) = (0, [0; 3]);
    /// while done < packets.len() {
    ///     done += tenant.run_bounded(prog, &Context::default(), &packets[done..], 5, &mut results[done..])?;
    ///     // Other tenants may be served here.
    /// }
    /// assert_eq!(results, [3, 0, 5]);
    /// # Ok::<(), Error>(())
    /// ```
    ///
    /// # Errors
    ///
    /// As [`run_packets`](Tenant::run_packets).
    pub fn run_bounded(
        &mut self,
        prog: Fd,
        contexts: &(impl AsContexts + ?Sized),
        packets: impl IntoIterator<Item: AsRef<[u8]>>,
        bound: u64,
        results: &mut [u32],
    ) -> Result<usize, Error> {
        self.host.run_packets(self.run(prog, bound), contexts.as_contexts(), packets, results)
    }

    /// The same on packets in place, as [`run_packets_in_place`](Tenant::run_packets_in_place) has them. The next call takes the bytes after
    /// the last packet that was run, and ends that count from there.
    ///
    /// # Errors
    ///
    /// As [`run_packets_in_place`](Tenant::run_packets_in_place).
    pub fn run_bounded_in_place(
        &mut self,
        prog: Fd,
        contexts: &(impl AsContexts + ?Sized),
        bytes: &[u8],
        ends: &[usize],
        bound: u64,
        results: &mut [u32],
    ) -> Result<usize, Error> {
        self.host.run_packets_in_place(self.run(prog, bound), contexts.as_contexts(), bytes, ends, results)
    }

    /// Closes a descriptor. A map goes when no descriptor and no open program names it.
    ///
    /// # Errors
    ///
    /// EBADF.
    pub fn close(&mut self, fd: Fd) -> Result<(), Error> {
        self.ask(CLOSE, &[&fd.0.to_le_bytes()]).done().map(drop)
    }

    fn run(&self, prog: Fd, bound: u64) -> Run {
        Run { tenant: self.number, prog: prog.0, bound }
    }

    fn ask(&mut self, command: u16, fields: &[&[u8]]) -> Reply<'_> {
        self.host.ask(self.number, command, fields)
    }
}
