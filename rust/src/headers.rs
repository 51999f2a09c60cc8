//! Packets as bytes: what their headers say, and the mark. These functions need no scheduler.

use crate::packet::{Ecn, Packet};
use crate::sys;
use std::ffi::c_int;
use std::fmt::{self, Display, Formatter};
use std::net::{IpAddr, Ipv4Addr, Ipv6Addr};

/// What bytes are found to be: the first rule that they break.
#[derive(Clone, Copy, Debug, PartialEq, Eq, Hash)]
pub enum Verdict {
    /// They break none.
    Fine,
    /// Fewer came than the fixed header has: 20 of IPv4, 40 of IPv6.
    Short,
    /// Neither IPv4 nor IPv6, or another version than the ethertype says.
    NotIp,
    /// The header length of IPv4 is below 5 words.
    BadIhl,
    /// The total length of IPv4 is below the header's.
    BadLength,
    /// The packet says that it is longer than what came.
    Overrun,
    /// An extension header of IPv6 passes the packet's end.
    BadChain,
    /// The packet is longer than 65,535 bytes.
    TooLong,
    /// The payload length of IPv6 is left to an option that isn't there, or says too little.
    BadJumbo,
    /// The captured bytes end inside a header.
    Cut,
    /// No link type that is known here has that number.
    UnknownLink,
}

impl Verdict {
    fn of(answer: c_int) -> Verdict {
        match answer {
            0 => Verdict::Fine,
            -20 => Verdict::Short,
            -21 => Verdict::NotIp,
            -22 => Verdict::BadIhl,
            -23 => Verdict::BadLength,
            -24 => Verdict::Overrun,
            -25 => Verdict::BadChain,
            -26 => Verdict::TooLong,
            -27 => Verdict::BadJumbo,
            -28 => Verdict::Cut,
            -29 => Verdict::UnknownLink,
            _ => unreachable!("the library answered {answer}"),
        }
    }
}

impl Display for Verdict {
    fn fmt(&self, f: &mut Formatter<'_>) -> fmt::Result {
        f.write_str(match self {
            Verdict::Fine => "a packet of IP",
            Verdict::Short => "fewer bytes came than the header has",
            Verdict::NotIp => "neither IPv4 nor IPv6, or another version than the ethertype says",
            Verdict::BadIhl => "the header length of IPv4 is below 5 words",
            Verdict::BadLength => "the total length of IPv4 is below the header length",
            Verdict::Overrun => "the packet says that it is longer than what came",
            Verdict::BadChain => "an extension header of IPv6 passes the packet's end",
            Verdict::TooLong => "the packet is longer than 65535 bytes",
            Verdict::BadJumbo => {
                "the jumbo payload option of IPv6 is missing, or says less than 65536 bytes"
            }
            Verdict::Cut => "the captured bytes end inside a header",
            Verdict::UnknownLink => "no known link type has that number",
        })
    }
}

/// Which part of a datagram a packet is.
#[derive(Clone, Copy, Debug, PartialEq, Eq, Hash)]
pub enum Fragment {
    /// All of it.
    Whole,
    /// All of it, behind a fragment header (RFC 6946).
    Atomic,
    /// The first of several.
    First,
    /// Another than the first.
    Later,
}

/// Where a packet's ports are.
#[derive(Clone, Copy, Debug, PartialEq, Eq, Hash)]
pub enum Ports {
    /// The protocol has none, or isn't reached.
    Absent,
    /// They were read.
    Found,
    /// The packet ends before them.
    Beyond,
    /// The captured bytes end before them.
    Cut,
    /// The packet is a fragment: all fragments of a datagram have ports 0.
    Fragment,
}

/// What is wanted in place of the ports.
#[derive(Clone, Copy, Debug, PartialEq, Eq, Hash, Default)]
pub struct InPlaceOfPorts {
    /// ESP's index of security parameters, its high half as the source port.
    pub esp_spi: bool,
    /// A flow label of IPv6 that isn't 0, its high four bits as the source port.
    pub flow_label: bool,
}

/// What the headers of a packet say.
#[derive(Clone, Copy, Debug, PartialEq, Eq, Hash)]
pub struct Parsed {
    /// What the bytes are found to be.
    pub verdict: Verdict,
    /// The packet, ready for [`enqueue`](crate::Scheduler::enqueue). It is there where the verdict is [`Verdict::Fine`]
    /// or [`Verdict::BadChain`], and where it is [`Verdict::Cut`] behind the fixed header.
    pub packet: Option<Packet>,
    /// Where the transport's header begins, in bytes from the first of the packet.
    pub transport: usize,
    /// The flow label of IPv6.
    pub flow_label: u32,
    /// Which part of a datagram it is.
    pub fragment: Fragment,
    /// Where the ports are.
    pub ports: Ports,
    /// The code point of differentiated services.
    pub dscp: u8,
}

/// The packet in what a link delivered.
#[derive(Clone, Copy, Debug, PartialEq, Eq, Hash)]
pub struct Found {
    /// [`Verdict::Fine`], [`Verdict::NotIp`], [`Verdict::Cut`] or [`Verdict::UnknownLink`].
    pub verdict: Verdict,
    /// Where it begins, in bytes from the first.
    pub offset: usize,
    /// How many VLAN tags are before it.
    pub tags: usize,
    /// Its ethertype, and none where the link has none.
    pub ethertype: Option<u16>,
}

/// Finds the packet in what a link delivered, by the number that captures have for the link's type: 1 for Ethernet,
/// 101, 12 and 14 for raw IP, 228 and 229 for raw IPv4 and IPv6, 113 and 276 for Linux's cooked headers, 0 and 108 for
/// BSD's loopback.
pub fn find(bytes: &[u8], link_type: u32) -> Found {
    let mut found = sys::Found::default();
    // SAFETY: the bytes and the record live through the call, and the length is theirs.
    let answer = unsafe { sys::maltcove_find(bytes.as_ptr(), bytes.len(), link_type, &mut found) };
    Found {
        verdict: Verdict::of(answer),
        offset: found.offset as usize,
        tags: found.tags as usize,
        ethertype: (found.ethertype != 0).then_some(found.ethertype),
    }
}

/// Reads the headers of a packet, from the header of IP on, of which the link delivered `wire` bytes. The ethertype is
/// the link's, where it has one. No byte past the captured ones or past the packet's own length is read.
pub fn parse(
    bytes: &[u8],
    wire: usize,
    ethertype: Option<u16>,
    instead: InPlaceOfPorts,
    tag: u64,
) -> Parsed {
    let mut packet = sys::Packet::default();
    let mut place = sys::Where::default();
    packet.tag = tag;
    let flags = u32::from(instead.esp_spi) + 2 * u32::from(instead.flow_label);
    // SAFETY: the bytes and the records live through the call, and the length is theirs.
    let answer = unsafe {
        sys::maltcove_parse_as(
            bytes.as_ptr(),
            bytes.len(),
            wire,
            ethertype.unwrap_or(0),
            flags,
            &mut packet,
            &mut place,
        )
    };
    Parsed {
        verdict: Verdict::of(answer),
        packet: packet_of(&packet),
        transport: place.transport as usize,
        flow_label: place.flow_label,
        fragment: match place.fragment {
            0 => Fragment::Whole,
            1 => Fragment::Atomic,
            2 => Fragment::First,
            _ => Fragment::Later,
        },
        ports: match place.ports {
            0 => Ports::Absent,
            1 => Ports::Found,
            2 => Ports::Beyond,
            3 => Ports::Cut,
            _ => Ports::Fragment,
        },
        dscp: place.dscp,
    }
}

/// The packet of a record, if its version is known.
fn packet_of(record: &sys::Packet) -> Option<Packet> {
    let address = |bytes: [u8; 16]| match record.version {
        4 => Some(IpAddr::V4(Ipv4Addr::new(
            bytes[0], bytes[1], bytes[2], bytes[3],
        ))),
        6 => Some(IpAddr::V6(Ipv6Addr::from(bytes))),
        _ => None,
    };
    Some(Packet {
        tag: record.tag,
        len: record.len,
        src: address(record.src)?,
        dst: address(record.dst)?,
        sport: record.sport,
        dport: record.dport,
        proto: record.proto,
        ecn: Ecn::of_bits(record.ecn),
    })
}

/// Writes CE into the packet whose header of IP begins there, where its ECN field is ECT(0) or ECT(1), and mends the
/// checksum of IPv4 (RFC 1624). Says whether it did.
pub fn mark(bytes: &mut [u8]) -> bool {
    let mut place = sys::Where::default();
    // SAFETY: the bytes and the record live through the call, and the length is theirs.
    unsafe { sys::maltcove_mark(bytes.as_mut_ptr(), bytes.len(), &mut place) == 1 }
}
