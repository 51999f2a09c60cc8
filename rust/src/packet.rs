//! Packets as they come, go and are lost.

use crate::sys;
use std::net::IpAddr;

/// The two bits of explicit congestion notification (RFC 3168).
#[derive(Clone, Copy, Debug, PartialEq, Eq, Hash, Default)]
pub enum Ecn {
    /// 00: the sender doesn't take part.
    #[default]
    NotEct,
    /// 01: the sender takes part, and the packet can be marked.
    Ect1,
    /// 10: the same.
    Ect0,
    /// 11: congestion was met on the way.
    Ce,
}

impl Ecn {
    /// The two bits as a number.
    pub fn bits(self) -> u8 {
        match self {
            Ecn::NotEct => 0,
            Ecn::Ect1 => 1,
            Ecn::Ect0 => 2,
            Ecn::Ce => 3,
        }
    }

    /// The field of the two low bits of a number.
    pub fn of_bits(bits: u8) -> Ecn {
        match bits & 3 {
            0 => Ecn::NotEct,
            1 => Ecn::Ect1,
            2 => Ecn::Ect0,
            _ => Ecn::Ce,
        }
    }
}

/// A packet that comes.
#[derive(Clone, Copy, Debug, PartialEq, Eq, Hash)]
pub struct Packet {
    /// What the caller knows it by, as the number of its buffer. Once it is accepted it comes back once.
    pub tag: u64,
    /// Its length in bytes, from 1 to 65,535.
    pub len: u32,
    /// The source address.
    pub src: IpAddr,
    /// The destination address, of the same version of IP.
    pub dst: IpAddr,
    /// The source port, 0 where the protocol has none.
    pub sport: u16,
    /// The destination port, likewise.
    pub dport: u16,
    /// The protocol's number, as 6 for TCP and 17 for UDP.
    pub proto: u8,
    /// The ECN field.
    pub ecn: Ecn,
}

impl Packet {
    /// The record that C reads. The version is none where the two addresses are of two versions.
    pub(crate) fn record(&self) -> sys::Packet {
        let version = match (self.src, self.dst) {
            (IpAddr::V4(_), IpAddr::V4(_)) => 4,
            (IpAddr::V6(_), IpAddr::V6(_)) => 6,
            _ => 0,
        };
        sys::Packet {
            tag: self.tag,
            len: self.len,
            sport: self.sport,
            dport: self.dport,
            src: bytes_of(self.src),
            dst: bytes_of(self.dst),
            proto: self.proto,
            ecn: self.ecn.bits(),
            version,
        }
    }
}

/// The sixteen bytes of an address: of IPv4 the first four.
fn bytes_of(address: IpAddr) -> [u8; 16] {
    match address {
        IpAddr::V4(address) => {
            let mut bytes = [0; 16];
            bytes[..4].copy_from_slice(&address.octets());
            bytes
        }
        IpAddr::V6(address) => address.octets(),
    }
}

/// What is said of a packet that was accepted.
#[derive(Clone, Copy, Debug, PartialEq, Eq, Hash)]
pub struct Admitted {
    /// Its place in the order of acceptance, from 0.
    pub id: u64,
    /// The flow that it went to.
    pub flow: u32,
    /// How many packets were dropped for it. They are there to be read, by
    /// [`Scheduler::drops`](crate::Scheduler::drops).
    pub drops: u64,
}

/// What marked a packet that is sent.
#[derive(Clone, Copy, Debug, PartialEq, Eq, Hash)]
pub enum Mark {
    /// CoDel, in place of a drop.
    Codel,
    /// The threshold: the packet had waited longer than `ce_threshold`.
    Threshold,
}

/// A packet that is sent.
#[derive(Clone, Copy, Debug, PartialEq, Eq, Hash)]
pub struct Sent {
    /// The tag that it was handed in with.
    pub tag: u64,
    /// The id that it was accepted with.
    pub id: u64,
    /// Its length in bytes.
    pub len: u32,
    /// Its ECN field as it has to be written: [`Ecn::Ce`] where it was marked.
    pub ecn: Ecn,
    /// What marked it, if anything did.
    pub mark: Option<Mark>,
    /// How many packets CoDel dropped before it. They are there to be read.
    pub drops: u64,
}

impl Sent {
    pub(crate) fn of(record: &sys::Sent) -> Sent {
        Sent {
            tag: record.tag,
            id: record.id,
            len: record.len,
            ecn: Ecn::of_bits(record.ecn),
            mark: match record.mark {
                0 => None,
                1 => Some(Mark::Codel),
                _ => Some(Mark::Threshold),
            },
            drops: record.drops,
        }
    }
}

/// Why a packet was dropped.
#[derive(Clone, Copy, Debug, PartialEq, Eq, Hash)]
pub enum Cause {
    /// CoDel: it had waited too long.
    Codel,
    /// More waited than `limit` or `memory_limit` allow.
    Overflow,
}

/// A packet that was dropped.
#[derive(Clone, Copy, Debug, PartialEq, Eq, Hash)]
pub struct Dropped {
    /// The tag that it was handed in with.
    pub tag: u64,
    /// The id that it was accepted with.
    pub id: u64,
    /// Why.
    pub cause: Cause,
}

impl Dropped {
    pub(crate) fn of(record: &sys::Dropped) -> Dropped {
        Dropped {
            tag: record.tag,
            id: record.id,
            cause: if record.cause == 0 {
                Cause::Codel
            } else {
                Cause::Overflow
            },
        }
    }
}

/// A packet that was flushed.
#[derive(Clone, Copy, Debug, PartialEq, Eq, Hash)]
pub struct Flushed {
    /// The tag that it was handed in with.
    pub tag: u64,
    /// The id that it was accepted with.
    pub id: u64,
}

/// The flow of a packet with this hash of a network card, below `flows`, and 0 where that is 0. It depends on the hash's
/// high bits, since the low ones have chosen the card's queue. Each flow gets as many hashes as any other, or one more or
/// less.
pub const fn flow_of_hash(hash: u32, flows: u32) -> u32 {
    ((hash as u64 * flows as u64) >> 32) as u32
}

/// The queue of a packet with this hash, below `queues`, for a program with a scheduler for each. It depends on the hash's
/// low half, so the packets of a queue are spread over flows as those of all queues are.
pub const fn queue_of_hash(hash: u32, queues: u32) -> u32 {
    flow_of_hash(hash.rotate_left(16), queues)
}
