//! Packets as bytes, from Rust.

use maltcove::{
    find, mark, parse, Ecn, Found, Fragment, InPlaceOfPorts, Packet, Parsed, Ports, Scheduler,
    Verdict,
};

/// UDP over IPv4, with DSCP 46 and ECT(0).
const UDP4: [u8; 28] = [
    0x45, 0xba, 0, 28, 0x12, 0x34, 0, 0, 64, 17, 0, 0, 10, 0, 0, 1, 10, 0, 0, 2, 0x13, 0x88, 0, 53,
    0, 8, 0, 0,
];

/// ESP over IPv6, with the traffic class 0xab and the flow label 0xabcde.
fn esp6() -> Vec<u8> {
    let mut bytes = vec![0x6a, 0xba, 0xbc, 0xde, 0, 8, 50, 64];
    for last in [1, 2] {
        bytes.extend([0x20, 1, 0x0d, 0xb8, 0, 0, 0, 0, 0, 0, 0, 0, 0, 0, 0, last]);
    }
    bytes.extend([0x12, 0x34, 0x56, 0x78, 0, 0, 0, 1]);
    bytes
}

const PORTS: InPlaceOfPorts = InPlaceOfPorts {
    esp_spi: false,
    flow_label: false,
};

fn spoilt(place: usize, with: &[u8]) -> Vec<u8> {
    let mut bytes = UDP4.to_vec();
    bytes[place..place + with.len()].copy_from_slice(with);
    bytes
}

#[test]
fn a_packet_is_parsed_and_queued() {
    let packet = Packet {
        tag: 7,
        len: 28,
        src: [10, 0, 0, 1].into(),
        dst: [10, 0, 0, 2].into(),
        sport: 5000,
        dport: 53,
        proto: 17,
        ecn: Ecn::Ect0,
    };
    let wanted = Parsed {
        verdict: Verdict::Fine,
        packet: Some(packet),
        transport: 20,
        flow_label: 0,
        fragment: Fragment::Whole,
        ports: Ports::Found,
        dscp: 46,
    };
    assert_eq!(parse(&UDP4, 46, Some(0x0800), PORTS, 7), wanted);
    let mut scheduler = Scheduler::open("", [0; 16]).unwrap();
    scheduler.enqueue(0, &packet).unwrap();
    assert_eq!(scheduler.dequeue(0).unwrap().unwrap().tag, 7);
}

#[test]
fn others_take_the_place_of_ports() {
    let source = "2001:db8::1".parse().unwrap();
    let destination = "2001:db8::2".parse().unwrap();
    for (esp_spi, flow_label, sport, dport, ports) in [
        (false, false, 0, 0, Ports::Absent),
        (true, false, 0x1234, 0x5678, Ports::Found),
        (false, true, 0xa, 0xbcde, Ports::Absent),
        (true, true, 0xa, 0xbcde, Ports::Found),
    ] {
        let instead = InPlaceOfPorts {
            esp_spi,
            flow_label,
        };
        let parsed = parse(&esp6(), 48, None, instead, 0);
        let packet = parsed.packet.unwrap();
        assert_eq!((packet.src, packet.dst), (source, destination));
        assert_eq!(
            (packet.sport, packet.dport, parsed.ports),
            (sport, dport, ports)
        );
        assert_eq!((packet.proto, packet.len, packet.ecn), (50, 48, Ecn::Ce));
        assert_eq!((parsed.flow_label, parsed.dscp), (0xabcde, 42));
    }
}

#[test]
fn each_verdict() {
    let six = esp6();
    let with = |place: usize, bytes: &[u8]| {
        let mut changed = six.clone();
        changed[place..place + bytes.len()].copy_from_slice(bytes);
        changed
    };
    for (verdict, bytes, wire, ethertype) in [
        (Verdict::Short, vec![], 0, None),
        (Verdict::Cut, vec![], 20, None),
        (Verdict::NotIp, UDP4.to_vec(), 28, Some(0x86dd)),
        (Verdict::BadIhl, spoilt(0, &[0x44]), 28, None),
        (Verdict::BadLength, spoilt(2, &[0, 0]), 28, None),
        (Verdict::Overrun, spoilt(2, &[0, 29]), 28, None),
        (Verdict::TooLong, with(4, &[0xff, 0xd8]), 1 << 16, None),
        (Verdict::BadJumbo, with(4, &[0, 0, 0]), 48, None),
    ] {
        let parsed = parse(&bytes, wire, ethertype, PORTS, 9);
        assert_eq!((parsed.verdict, parsed.packet), (verdict, None));
        assert!(!parsed.verdict.to_string().is_empty());
    }
    let mut bad_chain = with(6, &[60]);
    bad_chain[41] = 1;
    let parsed = parse(&bad_chain, 48, None, PORTS, 9);
    assert_eq!((parsed.verdict, parsed.transport), (Verdict::BadChain, 40));
    assert_eq!(parsed.packet.map(|p| (p.proto, p.tag)), Some((60, 9)));
}

#[test]
fn fragments_and_cut_ports() {
    for (field, fragment) in [([0x20, 0], Fragment::First), ([0x20, 1], Fragment::Later)] {
        let parsed = parse(&spoilt(6, &field), 28, None, PORTS, 0);
        assert_eq!((parsed.fragment, parsed.ports), (fragment, Ports::Fragment));
    }
    assert_eq!(parse(&UDP4[..22], 28, None, PORTS, 0).ports, Ports::Cut);
    assert_eq!(
        parse(&spoilt(3, &[23]), 28, None, PORTS, 0).ports,
        Ports::Beyond
    );
}

#[test]
fn frames() {
    let found = |verdict, offset, tags, ethertype| Found {
        verdict,
        offset,
        tags,
        ethertype,
    };
    let mut frame = vec![0; 12];
    frame.extend([0x88, 0xa8, 0, 100, 0x81, 0, 0, 101, 8, 0]);
    assert_eq!(find(&frame, 1), found(Verdict::Fine, 22, 2, Some(0x0800)));
    assert_eq!(find(&frame[..21], 1), found(Verdict::Cut, 0, 0, None));
    frame[21] = 6;
    assert_eq!(find(&frame, 1), found(Verdict::NotIp, 22, 2, Some(0x0806)));
    assert_eq!(find(&UDP4, 101), found(Verdict::Fine, 0, 0, None));
    assert_eq!(find(&UDP4, 147), found(Verdict::UnknownLink, 0, 0, None));
}

#[test]
fn marks() {
    let mut bytes = UDP4;
    assert!(mark(&mut bytes));
    // Equation 3 of RFC 1624: the word 45ba has become 45bb, and the checksum 0 has become fffe.
    let mut wanted = UDP4;
    wanted[1] = 0xbb;
    wanted[10..12].copy_from_slice(&[0xff, 0xfe]);
    assert_eq!(bytes, wanted);
    assert!(!mark(&mut bytes) && !mark(&mut []));
    assert_eq!(bytes, wanted);
}
