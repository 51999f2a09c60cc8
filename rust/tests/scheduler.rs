//! The calls of the type: what they give, what they refuse, and that each tag comes back once.

use maltcove::{version, Cause, Classify, Ecn, Error, Mark, Packet, Scheduler, WordFault};

const SEED: [u8; 16] = [0; 16];

fn packet(tag: u64, dport: u16, len: u32) -> Packet {
    Packet {
        tag,
        len,
        src: [10, 0, 0, 1].into(),
        dst: [10, 0, 0, 2].into(),
        sport: 5000,
        dport,
        proto: 17,
        ecn: Ecn::NotEct,
    }
}

fn open(words: &str) -> Scheduler {
    Scheduler::open(words, SEED).expect("good words")
}

#[test]
fn words_are_read() {
    let params = open(
        "limit 7 flows 9 quantum 300 mtu 100 target 1ms ce_threshold 3us noecn classify dport",
    )
    .params();
    assert_eq!(
        (params.limit, params.flows, params.quantum, params.mtu),
        (7, 9, 300, 100)
    );
    assert_eq!(
        (params.target, params.interval, params.ce_threshold),
        (1000, 100_000, Some(3))
    );
    assert_eq!(
        (params.memory_limit, params.drop_batch, params.ecn),
        (None, 64, false)
    );
    assert_eq!(params.classify, Classify::Dport);
    assert_eq!(open("").params().classify, Classify::Hash);
}

#[test]
fn wrong_words_are_named() {
    for (words, place, wanted, fault) in [
        ("limit 1000 brown", 3, "brown", WordFault::UnknownWord),
        ("noecn limit", 2, "limit", WordFault::MissingValue),
        ("limit 1k", 2, "1k", WordFault::NotANumber),
        ("target 5ms\n flows  0 ", 4, "0", WordFault::OutOfRange),
        ("ecn gr\u{fc}n ecn", 2, "gr\u{fc}n", WordFault::UnknownWord),
    ] {
        let refused = Scheduler::open(words, SEED).expect_err(words);
        let offset = words.find(wanted).expect("the word");
        let expected = Error::BadWords {
            place,
            offset,
            len: wanted.len(),
            fault,
        };
        assert_eq!(refused, expected);
        assert!(refused
            .to_string()
            .starts_with(&format!("parameter word {place}: ")));
    }
}

#[test]
fn packets_go_in_order_of_a_flow() {
    let mut scheduler = open("classify dport flows 4");
    for tag in 0..3 {
        let admitted = scheduler
            .enqueue(10, &packet(tag, 2, 100))
            .expect("accepted");
        assert_eq!((admitted.id, admitted.flow, admitted.drops), (tag, 2, 0));
    }
    assert_eq!(scheduler.queued(), 3);
    let flow = scheduler.flow(2).expect("a flow");
    assert_eq!(
        (flow.queued, flow.queued_bytes, flow.first_above),
        (3, 300, None)
    );
    let sent = scheduler.dequeue(20).expect("made").expect("one waits");
    assert_eq!(
        (sent.tag, sent.id, sent.len, sent.ecn, sent.mark),
        (0, 0, 100, Ecn::NotEct, None)
    );
    let mut burst = Vec::new();
    assert_eq!(scheduler.dequeue_burst(20, 100, &mut burst), Ok(2));
    assert_eq!(
        burst.iter().map(|sent| sent.tag).collect::<Vec<_>>(),
        [1, 2]
    );
    assert_eq!(scheduler.dequeue(20), Ok(None));
    let totals = scheduler.totals();
    assert_eq!(
        (
            totals.accepted,
            totals.sent,
            totals.sent_bytes,
            totals.queued
        ),
        (3, 3, 300, 0)
    );
}

/// A burst gives as many packets as were asked for, in their order, or all that wait where these are fewer.
#[test]
fn bursts_give_no_more_than_asked() {
    for most in 0..=100 {
        let mut scheduler = open("limit 100 classify dport");
        for tag in 0..70 {
            scheduler
                .enqueue(0, &packet(tag, 1, 100))
                .expect("accepted");
        }
        let mut burst = Vec::new();
        let given = most.min(70);
        assert_eq!(scheduler.dequeue_burst(20, most, &mut burst), Ok(given));
        assert_eq!(
            (burst.len(), scheduler.queued()),
            (given, 70 - given as u64)
        );
        assert_eq!(scheduler.dequeue_burst(20, 100, &mut burst), Ok(70 - given));
        assert!(burst.iter().map(|sent| sent.tag).eq(0..70));
    }
}

/// A burst that asks for more than wait finds that nothing waits: the flow leaves the lists, and its next packet has a
/// whole quantum.
#[test]
fn bursts_end_a_flow() {
    let mut scheduler = open("classify dport");
    scheduler.enqueue(0, &packet(0, 1, 100)).expect("accepted");
    assert_eq!(scheduler.dequeue_burst(0, 2, &mut Vec::new()), Ok(1));
    scheduler.enqueue(0, &packet(1, 1, 100)).expect("accepted");
    assert_eq!(scheduler.flow(1).map(|flow| flow.credits), Ok(1514));
}

/// More packets than any call needs to take at once: a burst, a flush and drops have all of them, each with its tag and
/// its id, in order.
#[test]
fn thousands_come_back() {
    let mut scheduler = open("limit 6000 drop_batch 1048576 classify dport");
    let mut burst = Vec::new();
    for tag in 50_000..56_000 {
        scheduler
            .enqueue(0, &packet(tag, 1, 100))
            .expect("accepted");
    }
    assert_eq!(scheduler.dequeue_burst(0, 3000, &mut burst), Ok(3000));
    let sent = burst.iter().map(|sent| (sent.tag, sent.id));
    assert!(sent.eq((50_000..53_000).zip(0..)));
    let flushed: Vec<_> = scheduler.flush().map(|one| (one.tag, one.id)).collect();
    assert!(flushed.into_iter().eq((53_000..56_000).zip(3000..)));
    for tag in 70_000..76_000 {
        scheduler
            .enqueue(0, &packet(tag, 1, 100))
            .expect("accepted");
    }
    let last = scheduler.enqueue(0, &packet(1, 1, 100)).expect("accepted");
    assert_eq!((last.id, last.drops), (12_000, 3000));
    let lost: Vec<_> = scheduler.drops().map(|one| (one.tag, one.id)).collect();
    assert!(lost.into_iter().eq((70_000..73_000).zip(6000..)));
}

#[test]
fn refusals_are_named() {
    let mut scheduler = open("classify hash");
    assert_eq!(
        scheduler.enqueue(5, &packet(0, 1, 0)),
        Err(Error::BadPacket)
    );
    let mixed = Packet {
        dst: std::net::Ipv6Addr::LOCALHOST.into(),
        ..packet(0, 1, 1)
    };
    assert_eq!(scheduler.enqueue(5, &mixed), Err(Error::BadPacket));
    assert_eq!(
        scheduler.enqueue_flow(5, 1, 100, Ecn::NotEct, 0),
        Err(Error::Hashed)
    );
    assert_eq!(
        scheduler.enqueue(1 << 60, &packet(0, 1, 1)),
        Err(Error::TooLarge)
    );
    assert_eq!(scheduler.dequeue(5), Ok(None));
    assert_eq!(scheduler.dequeue(4), Err(Error::Backwards));
    assert_eq!(
        scheduler.dequeue_burst(4, 1, &mut Vec::new()),
        Err(Error::Backwards)
    );
    assert_eq!(scheduler.flow(1024), Err(Error::BadFlow));
    assert!(!scheduler.is_closed());
    assert_eq!(scheduler.close(5), Ok(()));
    assert!(scheduler.is_closed());
    assert_eq!(scheduler.close(5), Err(Error::Closed));
    assert_eq!(scheduler.enqueue(5, &packet(0, 1, 1)), Err(Error::Closed));
}

#[test]
fn drops_wait_for_their_reader() {
    let mut scheduler = open("limit 2 drop_batch 1 classify dport");
    for tag in 0..2 {
        assert_eq!(
            scheduler
                .enqueue(0, &packet(tag, 3, 100))
                .expect("accepted")
                .drops,
            0
        );
    }
    assert_eq!(
        scheduler
            .enqueue(0, &packet(2, 3, 100))
            .expect("accepted")
            .drops,
        1
    );
    assert_eq!(scheduler.enqueue(0, &packet(3, 3, 100)), Err(Error::Unread));
    let drops: Vec<_> = scheduler.drops().map(|d| (d.tag, d.id, d.cause)).collect();
    assert_eq!(drops, [(0, 0, Cause::Overflow)]);
    assert_eq!(
        scheduler
            .enqueue(0, &packet(3, 3, 100))
            .expect("accepted")
            .id,
        3
    );
}

#[test]
fn codel_drops_and_marks() {
    let mut scheduler = open("target 1ms interval 10ms mtu 0 classify dport flows 2 noecn");
    for tag in 0..4 {
        scheduler
            .enqueue(0, &packet(tag, 0, 1000))
            .expect("accepted");
    }
    assert_eq!(
        scheduler
            .dequeue(1000)
            .expect("made")
            .map(|sent| sent.drops),
        Some(0)
    );
    let sent = scheduler.dequeue(11_000).expect("made").expect("one waits");
    assert_eq!((sent.tag, sent.drops), (2, 1));
    let drops: Vec<_> = scheduler.drops().map(|d| (d.tag, d.cause)).collect();
    assert_eq!(drops, [(1, Cause::Codel)]);
    let mut scheduler = open("target 1s ce_threshold 1ms classify dport flows 2");
    scheduler
        .enqueue_flow(0, 5, 1000, Ecn::Ect1, 0)
        .expect("accepted");
    let sent = scheduler.dequeue(1001).expect("made").expect("one waits");
    assert_eq!((sent.ecn, sent.mark), (Ecn::Ce, Some(Mark::Threshold)));
}

/// Many packets, of which some are dropped and some sent, and the rest is flushed: each tag comes back once.
#[test]
fn each_tag_comes_back_once() {
    let mut scheduler = open("limit 50 flows 8 target 100us interval 1ms drop_batch 8");
    let mut returns = vec![0; 5000];
    for tag in 0..5000 {
        let moment = tag * 20;
        scheduler
            .enqueue(moment, &packet(tag, (tag % 13) as u16, 900))
            .expect("accepted");
        scheduler
            .drops()
            .for_each(|dropped| returns[dropped.tag as usize] += 1);
        if tag % 3 != 0 {
            let sent = scheduler.dequeue(moment).expect("made").expect("one waits");
            returns[sent.tag as usize] += 1;
            scheduler
                .drops()
                .for_each(|dropped| returns[dropped.tag as usize] += 1);
        }
    }
    let first = scheduler.flush().next().expect("one waits");
    returns[first.tag as usize] += 1;
    assert_eq!(scheduler.totals().flushed, 1);
    scheduler
        .flush()
        .for_each(|flushed| returns[flushed.tag as usize] += 1);
    scheduler
        .drops()
        .for_each(|dropped| returns[dropped.tag as usize] += 1);
    assert!(returns.iter().all(|times| *times == 1));
    let totals = scheduler.totals();
    assert_eq!(totals.queued, 0);
    assert_eq!(
        totals.accepted,
        totals.sent + totals.dropped_codel + totals.dropped_overflow + totals.flushed
    );
    assert!(totals.dropped_codel > 0 && totals.dropped_overflow > 0);
}

#[test]
fn the_version_is_that_of_the_crate() {
    assert_eq!(version(), env!("CARGO_PKG_VERSION"));
}

/// A scheduler is filled by one thread, emptied by another under a lock, and dropped by a third.
#[test]
fn goes_to_other_threads() {
    let mut scheduler = open("flows 1 classify dport");
    scheduler.enqueue(0, &packet(7, 1, 100)).expect("room");
    let scheduler = std::thread::spawn(move || {
        let mut scheduler = scheduler;
        scheduler.enqueue(1, &packet(8, 1, 100)).expect("room");
        scheduler
    })
    .join()
    .expect("a thread that ends");
    let shared = std::sync::Mutex::new(scheduler);
    let tags = std::thread::scope(|scope| {
        let take = || {
            let mut scheduler = shared.lock().expect("a lock");
            scheduler
                .dequeue(2)
                .expect("a dequeue")
                .expect("a packet")
                .tag
        };
        let (one, other) = (scope.spawn(take), scope.spawn(take));
        let mut tags = [one.join().expect("a tag"), other.join().expect("a tag")];
        tags.sort();
        tags
    });
    assert_eq!(tags, [7, 8]);
    std::thread::spawn(move || drop(shared))
        .join()
        .expect("a thread that ends");
}
