//! What a scheduler shows.

use crate::sys;

/// What became of all packets so far. Lengths are in bytes. The accepted packets are those that were sent, dropped or
/// flushed, and those that wait.
// It is the record that C writes, field by field.
#[repr(C)]
#[derive(Clone, Copy, Debug, PartialEq, Eq, Hash, Default)]
pub struct Totals {
    /// Packets accepted.
    pub accepted: u64,
    /// The sum of their lengths.
    pub accepted_bytes: u64,
    /// Packets sent.
    pub sent: u64,
    /// The sum of their lengths.
    pub sent_bytes: u64,
    /// Packets that CoDel dropped.
    pub dropped_codel: u64,
    /// Packets dropped since more waited than the limits allow, of packets or of bytes.
    pub dropped_overflow: u64,
    /// The sum of the lengths of all dropped packets.
    pub dropped_bytes: u64,
    /// Packets flushed.
    pub flushed: u64,
    /// The sum of their lengths.
    pub flushed_bytes: u64,
    /// Packets sent with a mark of CoDel's.
    pub marked: u64,
    /// Packets sent with a mark for the threshold, and none of CoDel's.
    pub threshold_marked: u64,
    /// Packets that wait.
    pub queued: u64,
    /// The sum of their lengths.
    pub queued_bytes: u64,
    /// Whether there was a close.
    pub closed: bool,
}

/// What is kept of a flow. Moments are in microseconds.
#[derive(Clone, Copy, Debug, PartialEq, Eq, Hash)]
pub struct Flow {
    /// How many packets wait.
    pub queued: u64,
    /// The sum of their lengths, in bytes.
    pub queued_bytes: u64,
    /// How many bytes it may send before the next flow's turn.
    pub credits: i64,
    /// CoDel: when packets will have been late for an interval, if the last one was late.
    pub first_above: Option<u64>,
    /// CoDel: when the next packet is due to be dropped.
    pub drop_next: u64,
    /// CoDel: drops since dropping began, and what it began with.
    pub count: u64,
    /// CoDel: the count with which dropping began last.
    pub last_count: u64,
    /// Whether CoDel drops.
    pub dropping: bool,
}

impl Flow {
    pub(crate) fn of(f: &sys::Flow) -> Flow {
        Flow {
            queued: f.queued,
            queued_bytes: f.queued_bytes,
            credits: f.credits,
            first_above: f.has_first_above.then_some(f.first_above),
            drop_next: f.drop_next,
            count: f.count,
            last_count: f.last_count,
            dropping: f.dropping,
        }
    }
}

/// How the flow of a packet is found.
#[derive(Clone, Copy, Debug, PartialEq, Eq, Hash)]
pub enum Classify {
    /// By a hash of the five-tuple and the seed.
    Hash,
    /// By the destination port alone.
    Dport,
}

/// The parameters, in the units of tc-fq_codel(8).
#[derive(Clone, Copy, Debug, PartialEq, Eq, Hash)]
pub struct Params {
    /// The most packets that wait, in all flows together.
    pub limit: u32,
    /// How many flows there are.
    pub flows: u32,
    /// The bytes that a flow sends before the next one has its turn.
    pub quantum: u32,
    /// Where no more than this many bytes wait behind a packet, the packet isn't dropped.
    pub mtu: u32,
    /// A packet that waited less than this, in microseconds, isn't dropped.
    pub target: u64,
    /// How long packets wait too long before the first one is dropped, in microseconds.
    pub interval: u64,
    /// A packet that waited longer than this, in microseconds, is marked when it is sent, if it is ECT(0) or ECT(1) and
    /// CoDel doesn't mark it. None where no wait is too long for that.
    pub ce_threshold: Option<u64>,
    /// The most bytes of packets that wait, in all flows together. None where they aren't limited.
    pub memory_limit: Option<u64>,
    /// The most packets that the fattest flow loses at once, where too much waits.
    pub drop_batch: u32,
    /// Whether packets are marked in place of being dropped.
    pub ecn: bool,
    /// How the flow of a packet is found.
    pub classify: Classify,
}

impl Params {
    pub(crate) fn of(p: &sys::Params) -> Params {
        Params {
            limit: p.limit,
            flows: p.flows,
            quantum: p.quantum,
            mtu: p.mtu,
            target: p.target,
            interval: p.interval,
            ce_threshold: p.has_ce_threshold.then_some(p.ce_threshold),
            memory_limit: p.has_memory_limit.then_some(p.memory_limit),
            drop_batch: p.drop_batch,
            ecn: p.ecn,
            classify: if p.hash {
                Classify::Hash
            } else {
                Classify::Dport
            },
        }
    }
}
