use bpfhost_sys::{PROG_TEST_RUN, TEST_RUN_HEAD};

/// What a test run finds in its context after the packet's length: the fields of the kernel's `__sk_buff`, with any values.
#[derive(Debug, Clone, Copy, Default, PartialEq, Eq)]
#[repr(C)]
#[allow(missing_docs, reason = "the kernel's names, which mean to this host what the program makes of them")]
pub struct Context {
    pub pkt_type: u32,
    pub mark: u32,
    pub queue_mapping: u32,
    pub protocol: u32,
    pub vlan_present: u32,
    pub vlan_tci: u32,
    pub vlan_proto: u32,
    pub priority: u32,
    pub ingress_ifindex: u32,
    pub ifindex: u32,
}

impl Context {
    /// The fields one after another.
    pub(crate) fn words(&self) -> [u32; 10] {
        let Context { pkt_type, mark, queue_mapping, protocol, vlan_present, .. } = *self;
        let Context { vlan_tci, vlan_proto, priority, ingress_ifindex, ifindex, .. } = *self;
        [
            pkt_type,
            mark,
            queue_mapping,
            protocol,
            vlan_present,
            vlan_tci,
            vlan_proto,
            priority,
            ingress_ifindex,
            ifindex,
        ]
    }

    /// What comes before the packet in the frame of a test run.
    pub(crate) fn head(&self, tenant: u16, prog: u32) -> [u8; TEST_RUN_HEAD] {
        let mut head = [0; TEST_RUN_HEAD];
        head[..2].copy_from_slice(&tenant.to_le_bytes());
        head[2..4].copy_from_slice(&PROG_TEST_RUN.to_le_bytes());
        head[4..8].copy_from_slice(&prog.to_le_bytes());
        for (field, word) in head[8..].chunks_exact_mut(4).zip(self.words()) {
            field.copy_from_slice(&word.to_le_bytes());
        }
        head
    }
}

/// What [`Tenant::run_packets`](crate::Tenant::run_packets) takes: the context of all packets, or one for each packet. A single one is that of
/// all packets in any form.
pub trait AsContexts {
    /// The contexts in the order of their packets, or the one of all.
    fn as_contexts(&self) -> &[Context];
}

impl AsContexts for Context {
    fn as_contexts(&self) -> &[Context] {
        std::slice::from_ref(self)
    }
}

impl AsContexts for [Context] {
    fn as_contexts(&self) -> &[Context] {
        self
    }
}

impl<const N: usize> AsContexts for [Context; N] {
    fn as_contexts(&self) -> &[Context] {
        self
    }
}

impl AsContexts for Vec<Context> {
    fn as_contexts(&self) -> &[Context] {
        self
    }
}

impl<T: AsContexts + ?Sized> AsContexts for &T {
    fn as_contexts(&self) -> &[Context] {
        (**self).as_contexts()
    }
}

/// A packet with room in front for the head of its frame, so that a test run copies no byte of it.
///
/// It owns its memory. A packet elsewhere needs no `Packet`: if [`TEST_RUN_HEAD`] bytes in front of it may be
/// overwritten, [`Tenant::prog_test_run_in_place`](crate::Tenant::prog_test_run_in_place) takes it as it lies.
#[derive(Debug, Clone, PartialEq, Eq)]
pub struct Packet {
    room: Vec<u8>,
}

impl Packet {
    /// A packet of so many zero bytes.
    pub fn new(length: usize) -> Packet {
        Packet { room: vec![0; TEST_RUN_HEAD + length] }
    }

    /// The packet.
    pub fn bytes(&self) -> &[u8] {
        &self.room[TEST_RUN_HEAD..]
    }

    /// The packet, to be written to.
    pub fn bytes_mut(&mut self) -> &mut [u8] {
        &mut self.room[TEST_RUN_HEAD..]
    }

    /// Makes the packet shorter, or longer by zero bytes.
    pub fn resize(&mut self, length: usize) {
        self.room.resize(TEST_RUN_HEAD + length, 0);
    }

    /// The room in front and the packet.
    pub fn room_mut(&mut self) -> &mut [u8] {
        &mut self.room
    }
}

impl From<&[u8]> for Packet {
    /// A copy of these bytes.
    fn from(bytes: &[u8]) -> Packet {
        let mut packet = Packet::new(bytes.len());
        packet.bytes_mut().copy_from_slice(bytes);
        packet
    }
}
