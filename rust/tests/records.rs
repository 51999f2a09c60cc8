//! What crosses into C and back: each field of each record, and each argument of each call, in its place.
//! No two numbers of a record are equal here.

use maltcove::{
    flow_of_hash, queue_of_hash, Admitted, Cause, Classify, Dropped, Ecn, Error, Flow, Flushed, Mark, Packet, Params, Scheduler,
    Sent, Totals,
};
use std::net::IpAddr;

/// The bytes 0 to 15.
const SEED: [u8; 16] = [0, 1, 2, 3, 4, 5, 6, 7, 8, 9, 10, 11, 12, 13, 14, 15];

fn open(words: &str) -> Scheduler {
    Scheduler::open(words, SEED).expect("good words")
}

fn address(text: &str) -> IpAddr {
    text.parse().expect("an address")
}

/// A packet whose bytes all differ from each other and from those of the seed, but for its addresses.
fn packet(src: &str, dst: &str) -> Packet {
    Packet {
        tag: 7,
        len: 1000,
        src: address(src),
        dst: address(dst),
        sport: 0x4041,
        dport: 0x4243,
        proto: 0x10,
        ecn: Ecn::NotEct,
    }
}

/// Packets of one flow, which are accepted at a moment. The drops of each are read.
fn enqueue(
    scheduler: &mut Scheduler,
    now: u64,
    flow: u32,
    len: u32,
    ecn: Ecn,
    tags: std::ops::Range<u64>,
) {
    for tag in tags {
        let admitted = scheduler
            .enqueue_flow(now, flow, len, ecn, tag)
            .expect("accepted");
        assert_eq!(scheduler.drops().count() as u64, admitted.drops);
    }
}

/// The packet that is given at a moment. The drops before it are read.
fn dequeue(scheduler: &mut Scheduler, now: u64) -> Sent {
    let sent = scheduler.dequeue(now).expect("made").expect("one waits");
    assert_eq!(scheduler.drops().count() as u64, sent.drops);
    sent
}

/// The flow of a packet is the SHA-256 of the seed and the five-tuple, as `docs/RULES.md` has it: by the `hashlib` of
/// Python.
#[test]
fn each_byte_of_a_packet_is_hashed() {
    let mut scheduler = open("");
    let four = packet("32.33.34.35", "48.49.50.51");
    let six = packet(
        "2021:2223:2425:2627:2829:2a2b:2c2d:2e2f",
        "3031:3233:3435:3637:3839:3a3b:3c3d:3e3f",
    );
    for (packet, flow) in [(four, 341), (six, 87)] {
        assert_eq!(
            scheduler.enqueue(0, &packet).map(|admitted| admitted.flow),
            Ok(flow)
        );
    }
}

/// The packets of `examples/ipv6_hashed`, whose report has these flows.
#[test]
fn flows_are_those_of_the_report() {
    let mut scheduler = open("");
    for (src, dst, sport, proto, flow) in [
        ("2001:db8::1", "2001:db8::2", 5000, 17, 197),
        ("2001:db8::1", "2001:db8::2", 5001, 17, 174),
        ("2001:db8::1", "2001:db8::2", 5000, 6, 162),
        ("::ffff:10.0.0.1", "::ffff:10.0.0.2", 5000, 17, 1000),
        ("10.0.0.1", "10.0.0.2", 5000, 17, 335),
    ] {
        let packet = Packet {
            sport,
            dport: 53,
            proto,
            ..packet(src, dst)
        };
        assert_eq!(
            scheduler.enqueue(0, &packet).map(|admitted| admitted.flow),
            Ok(flow)
        );
    }
}

#[test]
fn addresses_of_two_versions_are_refused() {
    let mut scheduler = open("");
    for (src, dst) in [("10.0.0.1", "::1"), ("::1", "10.0.0.1")] {
        assert_eq!(
            scheduler.enqueue(0, &packet(src, dst)),
            Err(Error::BadPacket)
        );
    }
}

#[test]
fn fields_of_ecn_are_the_two_bits() {
    let fields = [Ecn::NotEct, Ecn::Ect1, Ecn::Ect0, Ecn::Ce];
    assert_eq!(fields.map(Ecn::bits), [0, 1, 2, 3]);
    assert_eq!([0, 1, 2, 3].map(Ecn::of_bits), fields);
    let mut scheduler = open("");
    for ecn in fields {
        let one = Packet {
            ecn,
            ..packet("10.0.0.1", "10.0.0.2")
        };
        scheduler.enqueue(0, &one).expect("accepted");
        assert_eq!(dequeue(&mut scheduler, 0).ecn, ecn);
    }
}

/// The seventh packet drives out half of the seven.
#[test]
fn fields_of_admitted_and_of_overflow() {
    let mut scheduler = open("limit 6 drop_batch 3 classify dport flows 8");
    enqueue(&mut scheduler, 7, 5, 1000, Ecn::Ect1, 100..106);
    let admitted = scheduler.enqueue_flow(9, 13, 900, Ecn::Ect0, 99);
    assert_eq!(
        admitted,
        Ok(Admitted {
            id: 6,
            flow: 5,
            drops: 3
        })
    );
    let lost = [100, 101, 102].map(|tag| Dropped {
        tag,
        id: tag - 100,
        cause: Cause::Overflow,
    });
    assert_eq!(scheduler.drops().collect::<Vec<_>>(), lost);
    let flow = scheduler.flow(5).expect("a flow");
    assert_eq!((flow.queued, flow.queued_bytes), (4, 3900));
    let left: Vec<_> = scheduler.flush().collect();
    assert_eq!(
        left[1..],
        [(104, 4), (105, 5), (99, 6)].map(|(tag, id)| Flushed { tag, id })
    );
    let one = Packet {
        tag: 98,
        dport: 10,
        ..packet("10.0.0.1", "10.0.0.2")
    };
    enqueue(&mut scheduler, 9, 2, 1000, Ecn::Ect1, 107..113);
    let admitted = scheduler.enqueue(9, &one).expect("accepted");
    assert_eq!((admitted.id, admitted.flow, admitted.drops), (13, 2, 3));
}

/// Of eight packets the fifth one is late, the sixth one dropped, the seventh one marked for the threshold.
#[test]
fn fields_of_sent_and_of_codel() {
    let mut scheduler =
        open("target 1ms interval 10ms mtu 0 ce_threshold 5ms classify dport flows 4");
    for id in 0..8 {
        let ecn = if id == 6 { Ecn::Ect0 } else { Ecn::NotEct };
        enqueue(
            &mut scheduler,
            0,
            3,
            900 + id,
            ecn,
            100 + u64::from(id)..101 + u64::from(id),
        );
    }
    for moment in [0, 0, 0, 0, 1000] {
        assert_eq!(dequeue(&mut scheduler, moment).mark, None);
    }
    let sent = Sent {
        tag: 106,
        id: 6,
        len: 906,
        ecn: Ecn::Ce,
        mark: Some(Mark::Threshold),
        drops: 1,
    };
    assert_eq!(scheduler.dequeue(11_000), Ok(Some(sent)));
    let lost = Dropped {
        tag: 105,
        id: 5,
        cause: Cause::Codel,
    };
    assert_eq!(scheduler.drops().collect::<Vec<_>>(), [lost]);
    assert_eq!(
        scheduler.flush().collect::<Vec<_>>(),
        [Flushed { tag: 107, id: 7 }]
    );
}

/// The run of `c/tests/calls.c`, `each_total`: marks of both kinds, drops of both causes, and a flush of flow 1.
fn run_with_all() -> Scheduler {
    let mut scheduler = open(
        "limit 10 drop_batch 1 target 1ms interval 10ms mtu 0 ce_threshold 500us classify dport flows 4 ecn",
    );
    enqueue(&mut scheduler, 0, 1, 1000, Ecn::Ect0, 0..10);
    for moment in [600, 700, 800, 1000] {
        assert_eq!(dequeue(&mut scheduler, moment).mark, Some(Mark::Threshold));
    }
    assert_eq!(dequeue(&mut scheduler, 11_000).mark, Some(Mark::Codel));
    assert_eq!(scheduler.flush().take(5).count(), 5);
    enqueue(&mut scheduler, 11_000, 2, 300, Ecn::NotEct, 10..26);
    assert_eq!(dequeue(&mut scheduler, 12_000).tag, 16);
    scheduler
}

#[test]
fn fields_of_flows() {
    let mut scheduler = run_with_all();
    let late = Flow {
        queued: 9,
        queued_bytes: 2700,
        credits: 1214,
        first_above: Some(22_000),
        drop_next: 0,
        count: 0,
        last_count: 0,
        dropping: false,
    };
    assert_eq!(scheduler.flow(2), Ok(late));
    for (moment, tag) in [(22_000, 18), (32_000, 20), (32_000, 21), (32_000, 22)] {
        assert_eq!(dequeue(&mut scheduler, moment).tag, tag);
    }
    let drops = Flow {
        queued: 3,
        queued_bytes: 900,
        credits: 14,
        drop_next: 39_071,
        count: 2,
        last_count: 1,
        dropping: true,
        ..late
    };
    assert_eq!(scheduler.flow(2), Ok(drops));
    let left = Flow {
        queued: 0,
        queued_bytes: 0,
        credits: -916,
        first_above: None,
        drop_next: 21_000,
        count: 1,
        last_count: 1,
        dropping: false,
    };
    assert_eq!(scheduler.flow(1), Ok(left));
}

#[test]
fn fields_of_totals() {
    let mut scheduler = run_with_all();
    for moment in [22_000, 32_000, 32_000, 32_000] {
        dequeue(&mut scheduler, moment);
    }
    let totals = Totals {
        accepted: 26,
        accepted_bytes: 14_800,
        sent: 10,
        sent_bytes: 6500,
        dropped_codel: 2,
        dropped_overflow: 6,
        dropped_bytes: 2400,
        flushed: 5,
        flushed_bytes: 5000,
        marked: 1,
        threshold_marked: 4,
        queued: 3,
        queued_bytes: 900,
        closed: false,
    };
    assert_eq!(scheduler.totals(), totals);
    assert_eq!(scheduler.queued(), 3);
    scheduler.close(32_000).expect("the first close");
    assert_eq!(
        scheduler.totals(),
        Totals {
            closed: true,
            ..totals
        }
    );
}

#[test]
fn fields_of_params() {
    let few = "limit 7 flows 9 quantum 300 mtu 100 target 1ms interval 2s drop_batch 5";
    let params = Params {
        limit: 7,
        flows: 9,
        quantum: 300,
        mtu: 100,
        target: 1000,
        interval: 2_000_000,
        ce_threshold: Some(3),
        memory_limit: Some(4000),
        drop_batch: 5,
        ecn: false,
        classify: Classify::Dport,
    };
    let both = format!("{few} ce_threshold 3us memory_limit 4000 noecn classify dport");
    assert_eq!(open(&both).params(), params);
    let marks = Params {
        memory_limit: None,
        ce_threshold: Some(0),
        ecn: true,
        ..params
    };
    assert_eq!(
        open(&format!("{few} ce_threshold 0 classify dport")).params(),
        marks
    );
    let hashed = Params {
        ce_threshold: None,
        classify: Classify::Hash,
        ..params
    };
    assert_eq!(
        open(&format!("{few} memory_limit 4000 noecn")).params(),
        hashed
    );
}

/// Each call passes its moment on: it may not step back, and has to be below 2^60.
#[test]
fn moments_of_each_call() {
    let mut scheduler = open("classify dport");
    let one = packet("10.0.0.1", "10.0.0.2");
    let none = &mut Vec::new();
    scheduler.enqueue(3, &one).expect("accepted");
    assert_eq!(
        scheduler.enqueue_flow(2, 1, 100, Ecn::NotEct, 9),
        Err(Error::Backwards)
    );
    scheduler
        .enqueue_flow(5, 1, 100, Ecn::NotEct, 9)
        .expect("accepted");
    assert_eq!(scheduler.dequeue(4), Err(Error::Backwards));
    assert_eq!(dequeue(&mut scheduler, 7).tag, 7);
    assert_eq!(scheduler.dequeue_burst(6, 9, none), Err(Error::Backwards));
    assert_eq!(scheduler.dequeue_burst(9, 9, none), Ok(1));
    assert_eq!(scheduler.enqueue(8, &one), Err(Error::Backwards));
    assert_eq!(
        scheduler.enqueue_flow(1 << 60, 1, 100, Ecn::NotEct, 9),
        Err(Error::TooLarge)
    );
    assert_eq!(scheduler.dequeue(1 << 60), Err(Error::TooLarge));
    assert_eq!(
        scheduler.dequeue_burst(1 << 60, 9, none),
        Err(Error::TooLarge)
    );
    assert_eq!(scheduler.close(1 << 60), Err(Error::TooLarge));
    assert_eq!(scheduler.close(8), Err(Error::Backwards));
    assert_eq!(scheduler.close(11), Ok(()));
    assert_eq!(scheduler.dequeue(10), Err(Error::Backwards));
}

/// The flow and the queue of some hashes, as in c/tests/calls.c.
#[test]
fn hashes_of_a_card() {
    let rows = [
        (0xffff_ffff, 1024, 1023, 1023),
        (0x8000_0000, 1000, 500, 0),
        (0x1234_5678, 65_536, 4660, 22_136),
        (0x0000_ffff, 16, 0, 15),
        (0x0041_8937, 1000, 0, 535),
        (0x0041_8938, 1000, 1, 536),
        (5, 0, 0, 0),
    ];
    for (hash, values, flow, queue) in rows {
        assert_eq!(flow_of_hash(hash, values), flow);
        assert_eq!(queue_of_hash(hash, values), queue);
    }
}
