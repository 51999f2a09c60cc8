"""The calls of the module. Run it by ``python3 -m unittest`` in this folder."""

from __future__ import annotations

import contextlib
import copy
import gc
import hashlib
import io
import ipaddress
import pickle
import unittest
from collections.abc import Callable
from typing import Any

from maltcove import (
    Admitted, Cause, Dropped, Error, Flow, Flushed, Found, Fragment, Mark, Packet, Params, Parsed, Ports, Scheduler, Sent,
    Status, Totals, Verdict, WordError, WordFault, find, mark, parse, version,
)

# The bytes 0 to 15.
SEED = bytes(range(16))


def packet(tag: int, dport: int = 1, length: int = 100) -> Packet:
    return Packet(tag=tag, len=length, src="10.0.0.1", dst="10.0.0.2", sport=5000, dport=dport)


def flow_of(p: Packet) -> int:
    """The flow of a packet among 1,024, as docs/RULES.md has it: by the SHA-256 of the seed and the five-tuple."""
    source, destination = ipaddress.ip_address(p.src).packed, ipaddress.ip_address(p.dst).packed
    ports = p.sport.to_bytes(2, "big") + p.dport.to_bytes(2, "big")
    digest = hashlib.sha256(SEED + bytes([p.proto]) + source + destination + ports).digest()
    return int.from_bytes(digest[:8], "big") % 1024


def enqueue(scheduler: Scheduler, now_us: int, flow: int, length: int, ecn: int, tags: range) -> None:
    """Packets of one flow, which are accepted at a moment. The drops of each are read."""
    for tag in tags:
        admitted = scheduler.enqueue_flow(now_us, flow, length, ecn, tag)
        assert len(scheduler.drops()) == admitted.drops


def dequeue(scheduler: Scheduler, now_us: int) -> Sent:
    """The packet that is given at a moment. The drops before it are read."""
    sent = scheduler.dequeue(now_us)
    assert sent is not None and len(scheduler.drops()) == sent.drops
    return sent


def run_with_all() -> Scheduler:
    """The run of c/tests/calls.c, each_total: marks of both kinds, drops of both causes, and a flush of flow 1."""
    words = "limit 10 drop_batch 1 target 1ms interval 10ms mtu 0 ce_threshold 500us classify dport flows 4"
    scheduler = Scheduler(words)
    enqueue(scheduler, 0, 1, 1000, 2, range(10))
    marks = [dequeue(scheduler, moment).mark for moment in (600, 700, 800, 1000, 11000)]
    assert marks == [Mark.THRESHOLD] * 4 + [Mark.CODEL]
    assert len(scheduler.flush()) == 5
    enqueue(scheduler, 11000, 2, 300, 0, range(10, 26))
    assert dequeue(scheduler, 12000).tag == 16
    return scheduler


class Calls(unittest.TestCase):
    def refused(self, status: Status, call: Callable[..., object], *arguments: object) -> None:
        with self.assertRaises(Error) as caught:
            call(*arguments)
        self.assertEqual(caught.exception.status, status)

    def test_words(self) -> None:
        with Scheduler("limit 7 flows 9 target 1ms ce_threshold 3us noecn classify dport") as scheduler:
            p = scheduler.params()
        self.assertEqual((p.limit, p.flows, p.target, p.ce_threshold, p.memory_limit), (7, 9, 1000, 3, None))
        self.assertEqual((p.quantum, p.interval, p.ecn, p.hash), (1514, 100000, False, False))
        for words, place, fault, word in (
            ("limit 1000 brown", 3, WordFault.UNKNOWN_WORD, "brown"),
            ("noecn limit", 2, WordFault.MISSING_VALUE, "limit"),
            ("\tlimit\n1k", 2, WordFault.NOT_A_NUMBER, "1k"),
            ("target 5ms flows 0", 4, WordFault.OUT_OF_RANGE, "0"), ("Größe", 1, WordFault.UNKNOWN_WORD, "Größe"),
        ):
            with self.assertRaises(WordError) as caught:
                Scheduler(words)
            found = caught.exception
            self.assertEqual((found.place, found.fault, found.word), (place, fault, word))
            self.assertEqual(found.status, Status.BAD_WORDS)
            self.assertEqual(str(found), f"parameter word {place}, '{word}': {fault.name}")

    def test_packets_go_in_order(self) -> None:
        with Scheduler("classify dport flows 4") as scheduler:
            for tag in range(3):
                self.assertEqual(scheduler.enqueue(10, packet(tag, 2)), (tag, 2, 0))
            self.assertEqual((scheduler.flow(2).queued, scheduler.flow(2).first_above), (3, None))
            sent = scheduler.dequeue(20)
            self.assertEqual(sent, (0, 0, 100, 0, Mark.NONE, 0))
            self.assertEqual([sent.tag for sent in scheduler.dequeue_burst(20, 5)], [1, 2])
            self.assertIsNone(scheduler.dequeue(20))
            totals = scheduler.totals()
        self.assertEqual((totals.accepted, totals.sent, totals.sent_bytes, totals.queued), (3, 3, 300, 0))

    def test_refusals(self) -> None:
        with Scheduler() as scheduler:
            self.refused(Status.BAD_PACKET, scheduler.enqueue, 5, packet(0, 1, 0))
            for src, dst in (("10.0.0.1", "::1"), ("::1", "10.0.0.1")):
                self.refused(Status.BAD_PACKET, scheduler.enqueue, 5, Packet(tag=0, len=1, src=src, dst=dst))
            self.refused(Status.HASHED, scheduler.enqueue_flow, 5, 1, 100)
            self.refused(Status.TOO_LARGE, scheduler.dequeue, 1 << 60)
            self.assertIsNone(scheduler.dequeue(5))
            self.refused(Status.BACKWARDS, scheduler.dequeue, 4)
            self.refused(Status.BAD_FLOW, scheduler.flow, 1024)
            scheduler.close(5)
            self.assertTrue(scheduler.is_closed())
            self.refused(Status.CLOSED, scheduler.close, 5)
            self.refused(Status.CLOSED, scheduler.enqueue, 5, packet(0))
            with self.assertRaises(ValueError):
                scheduler.dequeue(-1)
            with self.assertRaises(ValueError):
                scheduler.enqueue(5, packet(1 << 64))
        self.refused(Status.NOT_OPEN, scheduler.queued)

    def test_drops_and_flushes(self) -> None:
        with Scheduler("limit 2 drop_batch 1 classify dport") as scheduler:
            for tag in range(100, 103):
                admitted = scheduler.enqueue(0, packet(tag))
            self.assertEqual(admitted.drops, 1)
            self.refused(Status.UNREAD, scheduler.enqueue, 0, packet(3))
            self.assertEqual(scheduler.drops(), [Dropped(100, 0, Cause.OVERFLOW)])
            self.assertEqual(scheduler.drops(), [])
            self.assertEqual(scheduler.flush(), [Flushed(101, 1), Flushed(102, 2)])
            self.assertEqual(scheduler.queued(), 0)
            totals = scheduler.totals()
        self.assertEqual((totals.accepted, totals.dropped_overflow, totals.flushed, totals.queued), (3, 1, 2, 0))

    def test_marks(self) -> None:
        with Scheduler("target 1s ce_threshold 1ms classify dport") as scheduler:
            self.assertEqual(scheduler.enqueue_flow(0, 5, 1000, ecn=1, tag=9), Admitted(0, 5, 0))
            self.assertEqual(scheduler.dequeue(1001), Sent(9, 0, 1000, 3, Mark.THRESHOLD, 0))

    def test_fields_of_admitted_and_of_overflow(self) -> None:
        # The seventh packet drives out half of the seven.
        with Scheduler("limit 6 drop_batch 3 classify dport flows 8") as scheduler:
            enqueue(scheduler, 7, 5, 1000, 1, range(100, 106))
            self.assertEqual(scheduler.enqueue_flow(9, 13, 900, 2, 99), Admitted(id=6, flow=5, drops=3))
            lost = [Dropped(tag=100 + id, id=id, cause=Cause.OVERFLOW) for id in range(3)]
            self.assertEqual(scheduler.drops(), lost)
            self.assertEqual((scheduler.flow(5).queued, scheduler.flow(5).queued_bytes), (4, 3900))
            left = [Flushed(tag=tag, id=id) for tag, id in ((103, 3), (104, 4), (105, 5), (99, 6))]
            self.assertEqual(scheduler.flush(), left)
            enqueue(scheduler, 9, 2, 1000, 1, range(107, 113))
            self.assertEqual(scheduler.enqueue(9, packet(98, 10)), Admitted(id=13, flow=2, drops=3))

    def test_fields_of_sent_and_of_codel(self) -> None:
        # Of eight packets the fifth one is late, the sixth one dropped, the seventh one marked for the threshold.
        with Scheduler("target 1ms interval 10ms mtu 0 ce_threshold 5ms classify dport flows 4") as scheduler:
            for id in range(8):
                enqueue(scheduler, 0, 3, 900 + id, 2 if id == 6 else 0, range(100 + id, 101 + id))
            for moment in (0, 0, 0, 0, 1000):
                self.assertEqual(dequeue(scheduler, moment).mark, Mark.NONE)
            sent = Sent(tag=106, id=6, len=906, ecn=3, mark=Mark.THRESHOLD, drops=1)
            self.assertEqual(scheduler.dequeue(11000), sent)
            self.assertEqual(scheduler.drops(), [Dropped(tag=105, id=5, cause=Cause.CODEL)])
            self.assertEqual(scheduler.flush(), [Flushed(tag=107, id=7)])

    def test_fields_of_ecn(self) -> None:
        with Scheduler() as scheduler:
            for ecn in range(4):
                scheduler.enqueue(0, Packet(tag=7, len=100 + ecn, ecn=ecn))
                sent = dequeue(scheduler, 0)
                self.assertEqual((sent.ecn, sent.len), (ecn, 100 + ecn))

    def test_fields_of_flows(self) -> None:
        with run_with_all() as scheduler:
            late = Flow(
                queued=9, queued_bytes=2700, credits=1214, first_above=22000, drop_next=0, count=0, last_count=0,
                dropping=False,
            )
            self.assertEqual(scheduler.flow(2), late)
            tags = [dequeue(scheduler, moment).tag for moment in (22000, 32000, 32000, 32000)]
            self.assertEqual(tags, [18, 20, 21, 22])
            drops = Flow(
                queued=3, queued_bytes=900, credits=14, first_above=22000, drop_next=39071, count=2, last_count=1,
                dropping=True,
            )
            self.assertEqual(scheduler.flow(2), drops)
            # The flush ended where nothing waited: no dequeue found none, and the flow has the credits that were left.
            left = Flow(
                queued=0, queued_bytes=0, credits=-916, first_above=None, drop_next=21000, count=1, last_count=1,
                dropping=False,
            )
            self.assertEqual(scheduler.flow(1), left)
        with Scheduler("classify dport") as scheduler:
            enqueue(scheduler, 0, 1, 2000, 0, range(1))
            self.assertEqual(dequeue(scheduler, 0).len, 2000)
            self.assertEqual(scheduler.flow(1).credits, 1514 - 2000)

    def test_fields_of_totals(self) -> None:
        with run_with_all() as scheduler:
            for moment in (22000, 32000, 32000, 32000):
                dequeue(scheduler, moment)
            totals = Totals(
                accepted=26, accepted_bytes=14800, sent=10, sent_bytes=6500, dropped_codel=2, dropped_overflow=6,
                dropped_bytes=2400, flushed=5, flushed_bytes=5000, marked=1, threshold_marked=4, queued=3,
                queued_bytes=900, closed=False,
            )
            self.assertEqual(scheduler.totals(), totals)
            self.assertEqual(scheduler.queued(), 3)
            self.assertFalse(scheduler.is_closed())
            scheduler.close(32000)
            self.assertEqual(scheduler.totals(), totals._replace(closed=True))

    def test_fields_of_params(self) -> None:
        few = "limit 7 flows 9 quantum 300 mtu 100 target 1ms interval 2s drop_batch 5 "
        params = Params(
            limit=7, flows=9, quantum=300, mtu=100, target=1000, interval=2000000, ce_threshold=3, memory_limit=4000,
            drop_batch=5, ecn=False, hash=False,
        )
        for words, wanted in (
            ("ce_threshold 3us memory_limit 4000 noecn classify dport", params),
            ("ce_threshold 0 classify dport", params._replace(ce_threshold=0, memory_limit=None, ecn=True)),
            ("memory_limit 4000 noecn", params._replace(ce_threshold=None, hash=True)),
        ):
            with Scheduler(few + words) as scheduler:
                self.assertEqual(scheduler.params(), wanted)

    def test_moments_of_each_call(self) -> None:
        # Each call passes its moment on: it may not step back, and has to be below 2^60.
        with Scheduler("classify dport") as scheduler:
            scheduler.enqueue(3, packet(7))
            self.refused(Status.BACKWARDS, scheduler.enqueue_flow, 2, 1, 100)
            scheduler.enqueue_flow(5, 1, 100, tag=9)
            self.refused(Status.BACKWARDS, scheduler.dequeue, 4)
            self.assertEqual(dequeue(scheduler, 7).tag, 7)
            self.refused(Status.BACKWARDS, scheduler.dequeue_burst, 6, 9)
            self.assertEqual([sent.tag for sent in scheduler.dequeue_burst(9, 9)], [9])
            self.refused(Status.BACKWARDS, scheduler.enqueue, 8, packet(7))
            for call in (scheduler.dequeue, scheduler.close):
                self.refused(Status.TOO_LARGE, call, 1 << 60)
            self.refused(Status.TOO_LARGE, scheduler.enqueue, 1 << 60, packet(7))
            self.refused(Status.TOO_LARGE, scheduler.enqueue_flow, 1 << 60, 1, 100)
            self.refused(Status.BACKWARDS, scheduler.close, 8)
            scheduler.close(11)
            self.refused(Status.BACKWARDS, scheduler.dequeue, 10)

    def test_statements_read_and_flush(self) -> None:
        with Scheduler("limit 1 drop_batch 1") as scheduler:
            scheduler.enqueue(0, packet(0))
            scheduler.enqueue(0, packet(1))
            scheduler.drops()
            scheduler.enqueue(0, packet(2))
            scheduler.drops()
            scheduler.flush()
            self.assertEqual(scheduler.queued(), 0)

    def test_bursts(self) -> None:
        with Scheduler() as scheduler:
            scheduler.enqueue(0, packet(7))
            self.assertEqual([sent.tag for sent in scheduler.dequeue_burst(0, 1 << 40)], [7])
            self.assertEqual(scheduler.dequeue_burst(1, 0), [])
            self.assertEqual(scheduler.dequeue_burst(1, 9), [])
            self.refused(Status.TOO_LARGE, scheduler.dequeue_burst, 1 << 60, 9)
            self.assertEqual(scheduler.dequeue_burst(5, 9), [])
            self.refused(Status.BACKWARDS, scheduler.dequeue, 4)
            self.refused(Status.BACKWARDS, scheduler.dequeue_burst, 4, 9)
        for most in range(0, 100, 3):
            with Scheduler("classify dport") as scheduler:
                enqueue(scheduler, 0, 1, 100, 0, range(70))
                burst = [sent.tag for sent in scheduler.dequeue_burst(0, most)]
                self.assertEqual(burst, list(range(min(most, 70))))
                self.assertEqual(scheduler.queued(), 70 - len(burst))

    def test_bursts_end_a_flow(self) -> None:
        # Where more are asked for than wait the flow leaves the lists, and its next packet has a whole quantum.
        with Scheduler("classify dport") as scheduler:
            scheduler.enqueue(0, packet(0))
            self.assertEqual(len(scheduler.dequeue_burst(0, 2)), 1)
            scheduler.enqueue(0, packet(1))
            self.assertEqual(scheduler.flow(1).credits, 1514)

    def test_thousands_come_back(self) -> None:
        # More packets than any call needs to take at once: all come, each with its tag and its id, in order.
        with Scheduler("limit 6000 drop_batch 1048576 classify dport") as scheduler:
            enqueue(scheduler, 0, 1, 100, 0, range(50000, 56000))
            sent = [(one.tag, one.id) for one in scheduler.dequeue_burst(0, 3000)]
            self.assertEqual(sent, [(50000 + place, place) for place in range(3000)])
            self.assertEqual(scheduler.flush(), [Flushed(50000 + place, place) for place in range(3000, 6000)])
            enqueue(scheduler, 0, 1, 100, 0, range(70000, 76000))
            self.assertEqual(scheduler.enqueue_flow(0, 1, 100), Admitted(12000, 1, 3000))
            lost = [Dropped(70000 + place, 6000 + place, Cause.OVERFLOW) for place in range(3000)]
            self.assertEqual(scheduler.drops(), lost)

    def test_each_byte_of_a_packet_is_hashed(self) -> None:
        # The bytes of seed and five-tuple all differ from each other. Then a packet of standard values, and one with
        # two addresses that are no texts.
        four = Packet(tag=7, len=1000, src="32.33.34.35", dst="48.49.50.51", sport=0x4041, dport=0x4243, proto=16)
        six = Packet(
            tag=7, len=1000, src="2021:2223:2425:2627:2829:2a2b:2c2d:2e2f",
            dst="3031:3233:3435:3637:3839:3a3b:3c3d:3e3f", sport=0x4041, dport=0x4243, proto=16,
        )
        parsed = Packet(tag=7, len=1000, src=ipaddress.ip_address("::1"), dst=ipaddress.ip_address("::2"))
        with Scheduler(seed=SEED) as scheduler:
            for p, flow in ((four, 341), (six, 87), (Packet(tag=7, len=1000), 273), (parsed, None)):
                self.assertIn(flow, (flow_of(p), None))
                self.assertEqual(scheduler.enqueue(0, p).flow, flow_of(p))

    def test_flows_are_those_of_the_report(self) -> None:
        # The packets of examples/ipv6_hashed, whose report has these flows; the seed as each type that it may have.
        for seed in (SEED, bytearray(SEED), memoryview(SEED)):
            with Scheduler(seed=seed) as scheduler:
                for src, dst, sport, proto, flow in (
                    ("2001:db8::1", "2001:db8::2", 5000, 17, 197), ("2001:db8::1", "2001:db8::2", 5001, 17, 174),
                    ("2001:db8::1", "2001:db8::2", 5000, 6, 162),
                    ("::ffff:10.0.0.1", "::ffff:10.0.0.2", 5000, 17, 1000), ("10.0.0.1", "10.0.0.2", 5000, 17, 335),
                ):
                    p = Packet(tag=7, len=100, src=src, dst=dst, sport=sport, dport=53, proto=proto)
                    self.assertEqual(scheduler.enqueue(0, p).flow, flow)

    def test_destinations_have_flows_of_their_own(self) -> None:
        with Scheduler(seed=SEED) as scheduler:
            for prefix in ("10.0.0.", "2001:db8::"):
                packets = [Packet(tag=n, len=1, src=prefix + "1", dst=f"{prefix}{n}") for n in range(20)]
                self.assertEqual([scheduler.enqueue(0, p).flow for p in packets], [flow_of(p) for p in packets])

    def test_wrong_types_and_values(self) -> None:
        with Scheduler() as scheduler:
            calls: list[tuple[type[Exception], Callable[[], object]]] = [
                (TypeError, lambda: Scheduler(b"limit 7")),  # type: ignore[arg-type]
                (TypeError, lambda: Scheduler("", "seed of sixteen!")),  # type: ignore[arg-type]
                (ValueError, lambda: Scheduler("", bytes(15))), (ValueError, lambda: Scheduler("", bytes(17))),
                (ValueError, lambda: Scheduler("\ud800")),
                (TypeError, lambda: scheduler.dequeue(1.5)),  # type: ignore[arg-type]
                (TypeError, lambda: scheduler.dequeue("1")),  # type: ignore[arg-type]
                (ValueError, lambda: scheduler.dequeue(-1)), (ValueError, lambda: scheduler.dequeue_burst(0, -1)),
                (TypeError, lambda: scheduler.dequeue_burst(0, 1.0)),  # type: ignore[arg-type]
                (TypeError, lambda: scheduler.enqueue(0, b"packet")),  # type: ignore[arg-type]
                (TypeError, lambda: scheduler.enqueue(0, Packet(tag=None, len=1))),  # type: ignore[arg-type]
                (ValueError, lambda: scheduler.enqueue(0, Packet(tag=1 << 64, len=1))),
                (ValueError, lambda: scheduler.enqueue(0, Packet(tag=0, len=1, src="10.0.0.256"))),
                (TypeError, lambda: scheduler.enqueue_flow(0, 0.5, 1)),  # type: ignore[arg-type]
                (ValueError, lambda: scheduler.flow(1 << 32)),
            ]
            for number, (error, call) in enumerate(calls):
                with self.subTest(call=number), self.assertRaises(Exception) as caught:
                    call()
                self.assertIn(error, type(caught.exception).__mro__)
            self.assertEqual(scheduler.totals().accepted, 0)

    def test_seeds_are_random(self) -> None:
        def flows_of() -> list[int]:
            with Scheduler() as scheduler:
                return [scheduler.enqueue(0, packet(0, port)).flow for port in range(20)]

        # Two seeds give 20 packets the same of 1,024 flows once in 2^200 times.
        self.assertNotEqual(flows_of(), flows_of())

    def test_no_copy_frees_the_original(self) -> None:
        with Scheduler() as scheduler:
            scheduler.enqueue(0, packet(0))
            copies: list[Callable[[Any], object]] = [copy.copy, copy.deepcopy, pickle.dumps]
            for copied in copies:
                self.assertRaises(TypeError, copied, scheduler)
            gc.collect()
            self.assertEqual(scheduler.queued(), 1)

    def test_failed_constructors_are_quiet(self) -> None:
        said = io.StringIO()
        with contextlib.redirect_stderr(said):
            for arguments in ((1,), ("", "text"), ("", b"", 3), ("brown",)):
                with self.assertRaises((TypeError, ValueError, Error)):
                    Scheduler(*arguments)  # type: ignore
            gc.collect()
        self.assertEqual(said.getvalue(), "")

    def test_version(self) -> None:
        self.assertEqual(version(), "0.1.0")


class Headers(unittest.TestCase):
    """Packets as bytes."""

    UDP4 = bytes.fromhex("45ba001c1234000040110000 0a000001 0a000002 1388003500080000")
    ESP6 = bytes.fromhex("6ababcde 0008 32 40" + "20010db8" + "00" * 11 + "01" + "20010db8" + "00" * 11 + "02"
                         + "1234567800000001")

    def test_parse(self) -> None:
        parsed = parse(self.UDP4 + bytes(18), ethertype=0x0800, tag=7)
        packet = Packet(7, 28, ipaddress.ip_address("10.0.0.1"), ipaddress.ip_address("10.0.0.2"), 5000, 53, 17, 2)
        self.assertEqual(parsed, Parsed(Verdict.FINE, packet, 20, 0, Fragment.WHOLE, Ports.FOUND, 46))
        with Scheduler(seed=SEED) as scheduler:
            self.assertEqual(scheduler.enqueue(0, packet).flow, flow_of(packet))
            self.assertEqual(scheduler.dequeue(0), Sent(7, 0, 28, 2, Mark.NONE, 0))
        source, destination = ipaddress.ip_address("2001:db8::1"), ipaddress.ip_address("2001:db8::2")
        for esp_spi, flow_label, sport, dport, ports in [
                (False, False, 0, 0, Ports.ABSENT), (True, False, 0x1234, 0x5678, Ports.FOUND),
                (False, True, 0xA, 0xBCDE, Ports.ABSENT), (True, True, 0xA, 0xBCDE, Ports.FOUND)]:
            wanted = Packet(0, 48, source, destination, sport, dport, 50, 3)
            self.assertEqual(
                parse(self.ESP6, 48, 0x86DD, esp_spi=esp_spi, flow_label=flow_label),
                Parsed(Verdict.FINE, wanted, 40, 0xABCDE, Fragment.WHOLE, ports, 42))

    def test_verdicts(self) -> None:
        def spoilt(place: int, *spoils: int) -> bytes:
            return self.UDP4[:place] + bytes(spoils) + self.UDP4[place + len(spoils):]

        six = self.ESP6
        for verdict, data, wire, ethertype in [
                (Verdict.SHORT, b"", 0, None), (Verdict.CUT, b"", 20, None), (Verdict.NOT_IP, self.UDP4, 28, 0x86DD),
                (Verdict.BAD_IHL, spoilt(0, 0x44), 28, None), (Verdict.BAD_LENGTH, spoilt(2, 0, 0), 28, None),
                (Verdict.OVERRUN, spoilt(2, 0, 29), 28, None), (Verdict.TOO_LONG, six[:4] + b"\xff\xd8" + six[6:], 1 << 16, None),
                (Verdict.BAD_JUMBO, six[:4] + bytes(3) + six[7:], 48, None)]:
            parsed = parse(data, wire, ethertype)
            self.assertEqual(parsed, Parsed(verdict, None, 0, 0, Fragment.WHOLE, Ports.ABSENT, 0))
        bad_chain = parse(six[:6] + b"\x3c" + six[7:41] + b"\1" + six[42:])
        self.assertEqual((bad_chain.verdict, bad_chain.transport), (Verdict.BAD_CHAIN, 40))
        self.assertTrue(bad_chain.packet is not None and bad_chain.packet.proto == 60 and bad_chain.packet.len == 48)
        for field, fragment in [(0x20, Fragment.FIRST), (0x21, Fragment.LATER)]:
            self.assertEqual(parse(spoilt(6, field, field & 1)).fragment, fragment)
            self.assertEqual(parse(spoilt(6, field, field & 1)).ports, Ports.FRAGMENT)
        self.assertEqual(parse(self.UDP4[:22], 28).ports, Ports.CUT)
        self.assertEqual(parse(spoilt(3, 23), 28).ports, Ports.BEYOND)

    def test_find(self) -> None:
        frame = bytes(12) + bytes.fromhex("88a80064 81000065 0800") + self.UDP4
        self.assertEqual(find(frame, 1), Found(Verdict.FINE, 22, 2, 0x0800))
        self.assertEqual(find(frame[:21], 1), Found(Verdict.CUT, 0, 0, None))
        self.assertEqual(find(bytes(12) + b"\x08\x06", 1), Found(Verdict.NOT_IP, 14, 0, 0x0806))
        self.assertEqual(find(memoryview(self.UDP4), 101), Found(Verdict.FINE, 0, 0, None))
        self.assertEqual(find(bytearray(self.UDP4), 147), Found(Verdict.UNKNOWN_LINK, 0, 0, None))

    def test_mark(self) -> None:
        data = bytearray(self.UDP4)
        self.assertTrue(mark(data))
        # equation 3 of RFC 1624: the word 45ba has become 45bb, and the checksum 0 has become fffe
        self.assertEqual(data, self.UDP4[:1] + b"\xbb" + self.UDP4[2:10] + b"\xff\xfe" + self.UDP4[12:])
        self.assertFalse(mark(data) or mark(bytearray()) or mark(bytearray(b"\x45\x01")))

    def test_wrong_types(self) -> None:
        for call in (
                lambda: parse("45"), lambda: find(45, 1), lambda: mark(b"E"),  # type: ignore[arg-type]
        ):
            self.assertRaises(TypeError, call)
        for number in (-1, 1 << 32):
            self.assertRaises(ValueError, find, b"", number)
        self.assertRaises(ValueError, parse, b"", -1)
        self.assertRaises(ValueError, parse, b"", 0, 1 << 16)
        self.assertRaises(ValueError, parse, b"", tag=1 << 64)


if __name__ == "__main__":
    unittest.main()
