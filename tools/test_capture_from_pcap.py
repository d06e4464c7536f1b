#!/usr/bin/python3
"""Tests of capture_from_pcap.py, on stored and made-up packets.

    python3 tools/test_capture_from_pcap.py

Packets are made here byte by byte (RFC 791, 8200, 9293; IEEE 802.1Q; pcap and pcapng), without the library that the
tool reads them with, and the captures that are expected are written by hand. Of recorded packets the expected bytes
come from who sent them (data/record_loopback.py, data/record_served.py).
"""
import bz2
import gzip
import lzma
import os
import random
import struct
import subprocess
import sys
import unittest
import unittest.mock

import test_support
from test_support import DATA, GET, START, TOOLS, capture, read_capture, requests_in, sent_requests, texts_of
from test_support import texts_of_lives, traffic

from haboob_tools import capture_from_log, capture_from_pcap, capture_writer

SYN, FIN, RST, ACK = 2, 1, 4, 16
CLIENT, SERVER = (bytes([10, 0, 0, 1]), 4000), (bytes([10, 0, 0, 2]), 80)
NOTHING = "no request is to be taken"
CLIENT6, SERVER6 = (bytes(15) + b"\x01", 4000), (bytes(15) + b"\x02", 80)


def packet(sequence, data=b"", flags=ACK, source=CLIENT, destination=SERVER, acknowledgment=0):
    """An IP packet with one TCP segment, of IPv4 or IPv6 by the length of its addresses."""
    tcp = struct.pack(">HHIIBBHHH", source[1], destination[1], sequence % 2**32, acknowledgment % 2**32, 5 << 4, flags,
                      1000, 0, 0) + data
    if len(source[0]) == 16:
        return struct.pack(">IHBB", 6 << 28, len(tcp), 6, 64) + source[0] + destination[0] + tcp
    return struct.pack(">BBHHHBBH", 0x45, 0, 20 + len(tcp), 0, 0, 64, 6, 0) + source[0] + destination[0] + tcp


def reply(acknowledgment, flags=ACK):
    """A packet from the server."""
    return packet(0, b"", flags, SERVER, CLIENT, acknowledgment)


def frame(data, tags=b""):
    """An Ethernet frame around an IP packet, with tags of VLANs."""
    return bytes(12) + tags + (b"\x86\xdd" if data[0] >> 4 == 6 else b"\x08\x00") + data


def pcap(packets, order="<", ticks_in_second=10**6, link=1, size=65535, tags=b""):
    """A pcap of packets, each with its tick after START; an IP packet is framed for link 1, raw for link 101.

    Packets are cut at a size; frames have tags of VLANs.
    """
    magic = 0xA1B2C3D4 if ticks_in_second == 10**6 else 0xA1B23C4D
    parts = [struct.pack(order + "IHHiIII", magic, 2, 4, 0, 0, 65535, link)]
    for tick, data in packets:
        data = frame(data, tags) if link == 1 else data
        part = tick % 10**6 * (ticks_in_second // 10**6)
        kept = data[:size]
        parts += [struct.pack(order + "IIII", START + tick // 10**6, part, len(kept), len(data)), kept]
    return b"".join(parts)


def block(kind, body):
    """A block of a pcapng."""
    body += bytes(-len(body) % 4)
    length = len(body) + 12
    return struct.pack("<II", kind, length) + body + struct.pack("<I", length)


def pcapng(packets, size=65535):
    """A pcapng of packets, which come in turn from an Ethernet whose clock counts nanoseconds, and from one without
    frames that counts microseconds, less an hour. Packets are cut at a size."""
    text = block(0x0A0D0D0A, struct.pack("<IHHq", 0x1A2B3C4D, 1, 0, -1))
    text += block(1, struct.pack("<HHI", 1, 0, 65535) + struct.pack("<HHB3xHH", 9, 1, 9, 0, 0))
    text += block(1, struct.pack("<HHI", 101, 0, 65535) + struct.pack("<HHqHH", 14, 8, 3600, 0, 0))
    for number, (tick, data) in enumerate(packets):
        data = data if number % 2 else frame(data)
        time = START * 10**6 + tick - 3600 * 10**6 if number % 2 else (START * 10**6 + tick) * 1000
        head = struct.pack("<IIIII", number % 2, time >> 32, time % 2**32, len(data[:size]), len(data))
        text += block(6, head + data[:size])
    return text


class Packets(test_support.ToolTest):
    """capture_from_pcap.py"""

    def convert(self, data, *words, status=0):
        return self.run_tool(capture_from_pcap, ["--port", "80", *words], data, status)

    def expect(self, packets, *records, words=(), said=""):
        """Expects a capture from packets whose first is at START and 250,000 ticks."""
        text, line = self.convert(pcap([(tick + 250000, data) for tick, data in packets]), *words)
        self.assertEqual(text, capture(*records))
        self.assertIn(said, line)
        self.assertEqual(line.count("\n"), 1 + ("--sample" in words))

    def test_plain_connection(self):
        self.expect([(0, packet(99, b"", SYN)), (5, reply(100, SYN | ACK)), (10, packet(100, GET)), (11, reply(127)),
                     (900000, packet(127, GET, ACK | FIN)), (900001, packet(154, b"", RST))],
                    (10, 0, GET), (900000, 0, GET), (900000, 0), said="3 records, 1 connections, 54 bytes\n")

    def test_out_of_order(self):
        self.expect([(0, packet(99, b"", SYN)), (1, packet(115, GET[15:])), (2, packet(105, GET[5:15])),
                     (3, packet(127, b"", FIN)), (7, packet(100, GET[:5]))],
                    (7, 0, GET), (7, 0))

    def test_sent_twice(self):
        self.expect([(0, packet(99, b"", SYN)), (1, packet(99, b"", SYN)), (2, packet(100, GET)), (3, packet(100, GET)),
                     (3, packet(99, b"", SYN)), (4, packet(110, GET[10:])), (5, packet(127, b"", FIN)),
                     (6, packet(127, b"", FIN)), (7, packet(100, GET))],
                    (2, 0, GET), (5, 0))

    def test_bytes_with_the_first_packet(self):
        self.expect([(0, packet(99, GET, SYN)), (1, packet(127, GET))], (0, 0, GET), (1, 0, GET))

    def test_an_acknowledgment_before_its_bytes(self):
        self.expect([(0, packet(99, b"", SYN)), (1, reply(127)), (2, packet(100, GET)), (3, packet(127, b"", FIN))],
                    (2, 0, GET), (3, 0))

    def test_overlap(self):
        # Bytes 10 to 19 come twice, once before those in front of them; byte 26 is new in the last segment.
        self.expect([(0, packet(99, b"", SYN)), (1, packet(110, GET[10:20])), (2, packet(100, GET[:15])),
                     (3, packet(105, GET[5:] + b"G"))],
                    (2, 0, GET[:20]), (3, 0, GET[20:] + b"G"))

    def test_numbers_that_wrap(self):
        first = 2**32 - 10
        self.expect([(0, packet(first - 1, b"", SYN)), (1, packet(first + 20, GET[20:])), (2, packet(first, GET[:20])),
                     (3, packet(first + 5, GET[5:])), (4, packet(first + 27, GET, FIN))],
                    (2, 0, GET), (4, 0, GET), (4, 0))

    def test_lost_bytes_that_were_acknowledged(self):
        self.expect([(0, packet(99, b"", SYN)), (1, packet(100, GET)), (2, packet(137, GET[10:])), (3, reply(127)),
                     (4, reply(154)), (5, packet(127, GET)), (6, packet(154, GET))],
                    (1, 0, GET), (4, 0), said="1 connections ended by lost bytes")

    def test_lost_bytes_at_the_end(self):
        self.expect([(0, packet(99, b"", SYN)), (1, packet(100, GET)), (2, packet(130, b"", FIN))],
                    (1, 0, GET), (2, 0), said="1 connections ended by lost bytes")

    def test_too_many_waiting_bytes(self):
        far = [(tick, packet(200 + 60000 * tick, bytes(60000))) for tick in range(1, 19)]  # the 18th passes 1 MiB
        self.expect([(0, packet(99, b"", SYN)), (0, packet(100, GET)), *far, (30, packet(127, GET))],
                    (0, 0, GET), (18, 0), said="1 connections ended by lost bytes")

    def test_a_reset_by_the_server(self):
        self.expect([(0, packet(99, b"", SYN)), (1, packet(100, GET)), (9, reply(127, RST)), (10, packet(127, GET))],
                    (1, 0, GET), (9, 0))

    def test_a_port_used_again(self):
        self.expect([(0, packet(99, b"", SYN)), (1, packet(100, GET)), (5, packet(4999, b"", SYN)),
                     (6, packet(5000, GET))],
                    (1, 0, GET), (5, 0), (6, 1, GET))

    def test_a_connection_without_its_begin(self):
        self.expect([(0, packet(70, b"", ACK)), (4, packet(70, GET))],
                    (4, 0, GET), said="1 connections whose begin isn't in the file")

    def test_numbers_by_first_bytes(self):
        one, two = (CLIENT[0], 4001), (CLIENT[0], 4002)
        self.expect([(0, packet(9, b"", SYN, one)), (1, packet(9, b"", SYN, two)), (2, packet(10, GET, ACK, two)),
                     (3, packet(10, GET, ACK, one)), (3, packet(9, b"", SYN)), (4, packet(10, b"", FIN))],
                    (2, 0, GET), (3, 1, GET))

    def test_long_pieces_are_split(self):
        # 60,000 bytes wait for the 10,000 before them, and then come as one.
        self.expect([(0, packet(99, b"", SYN)), (1, packet(10100, b"y" * 60000)), (2, packet(100, b"x" * 10000))],
                    (2, 0, b"x" * 10000 + b"y" * 55536), (2, 0, b"y" * 4464))

    def test_time_that_falls(self):
        self.expect([(5, packet(99, b"", SYN)), (9, packet(100, GET)), (8, packet(127, GET)),
                     (2, packet(154, b"", FIN))],
                    (4, 0, GET), (4, 0, GET), (4, 0), said="2 records came late")

    def test_ipv6(self):
        self.expect([(0, packet(99, b"", SYN, CLIENT6, SERVER6)), (1, packet(100, GET, ACK, CLIENT6, SERVER6)),
                     (2, packet(100, GET)), (3, packet(127, b"", FIN, CLIENT6, SERVER6))],
                    (1, 0, GET), (2, 1, GET), (3, 0))

    def test_tls(self):
        hello = b"\x16\x03\x01\x02\x00\x01"
        self.expect([(0, packet(99, b"", SYN)), (1, packet(100, hello)), (2, packet(106, b"", FIN)),
                     (3, packet(100, GET, ACK, (CLIENT[0], 4001)))],
                    (3, 0, GET), said="left out: 1 connections of TLS")

    def test_other_ports_and_packets(self):
        other = packet(100, GET, ACK, CLIENT, (SERVER[0], 81))
        udp = bytearray(packet(100, GET))
        udp[9] = 17
        part = bytearray(packet(100, GET))
        part[6] = 0x20  # more fragments follow
        self.expect([(0, packet(99, b"", SYN)), (1, other), (2, bytes(udp)), (3, bytes(part)), (4, b"\x45"),
                     (5, packet(100, GET))],
                    (5, 0, GET), said="left out: 1 fragments of IP packets")

    def test_frames_within_frames(self):
        nested = (bytes(14) + b"\x65\x58") + (bytes(12) + b"\x65\x58") * 3000  # Ethernet in Ethernet, 3,000 times
        cooked = [(0, bytes(2) + frame(packet(1, GET))), (1, nested), (2, bytes(2) + frame(packet(28, GET)))]
        text, said = self.convert(pcap(cooked, link=113))
        self.assertEqual(text, capture((0, 0, GET), (2, 0, GET)))
        self.assertIn("1 packets that can't be read", said)

    def test_several_ports(self):
        packets = [(0, packet(1, GET)), (1, packet(1, GET, ACK, (CLIENT[0], 80), (SERVER[0], 8080)))]
        text, _ = self.convert(pcap(packets), "--port", "8080")
        self.assertEqual(text, capture((0, 0, GET), (1, 1, GET)))

    def test_sample(self):
        packets = [(tick, packet(1, GET, ACK, (CLIENT[0], 4000 + tick))) for tick in range(7)]
        self.expect(packets, (0, 0, GET), (3, 1, GET), (6, 2, GET), words=["--sample", "3"],
                    said="4 connections between the sampled ones")

    def test_from_and_to(self):
        new = (CLIENT[0], 4001)
        packets = [(0, packet(1, GET)), (750000, packet(1, GET, ACK, new)), (750001, packet(28, GET)),
                   (1750000, packet(28, GET, ACK, new)), (2750000, packet(55, GET, ACK, new))]
        words = ["--from", "1994-11-06T08:49:38Z", "--to", "784111780"]
        text, said = self.convert(pcap([(tick + 250000, data) for tick, data in packets]), *words)
        self.assertEqual(text, capture((0, 0, GET), (1000000, 0, GET), start=START + 1))
        self.assertIn("left out: 1 connections begun before --from;", said)

    def test_begun_before_from(self):
        packets = [(0, packet(99, b"", SYN)), (1000000, packet(100, GET)),
                   (2000000, packet(1, GET, ACK, CLIENT6, SERVER6)), (2000001, packet(127, GET))]
        text, said = self.convert(pcap(packets), "--from", str(START + 2))
        self.assertEqual(text, capture((0, 0, GET), start=START + 2))
        self.assertIn("1 connections begun before --from", said)

    def test_more_connections_than_numbers(self):
        packets = [(tick, packet(1, GET, ACK, (struct.pack(">I", tick), 4000))) for tick in range(65539)]
        records = [(tick, tick, GET) for tick in range(65536)]
        ends = "cut at tick 65536, 1994-11-06T08:49:37.065536Z (3 connections beyond 65536 connections"
        text, said = self.convert(pcap(packets), "--format", "2", "--lenient")
        self.assertEqual(text, capture(*records))
        self.assertIn("a capture ends at 65536 connections: %s); take a part of the time by --from and --to, or a "
                      "traffic text by --format traffic\n" % ends, said)
        text, said = self.convert(pcap(packets), "--lenient")
        self.assertEqual(text, traffic(*records))
        self.assertIn("a traffic text ends at 65536 connections at once: %s at once); take a part of the time by "
                      "--from and --to\n" % ends, said)
        with unittest.mock.patch.object(capture_writer, "CONNECTIONS_LIMIT", 3):
            for words in ([], ["--format", "2"], ["--format", "traffic"]):
                _, said = self.convert(pcap(packets[:4]), *words, status=1)
                self.assertIn("ends at 3 connections", said)
                self.assertIn("nothing is written: --lenient writes what there is", said)

    def test_more_connections_than_a_capture_has(self):
        clients = [(struct.pack(">I", number), 4000) for number in range(65539)]
        packets = [(number, packet(1, GET, ACK, client)) for number, client in enumerate(clients)]
        # The ends of the connections 5 and 2 come before the numbers are all given, that of 9 between the later ones.
        ends = {70: (5, FIN | ACK), 90: (2, RST), 65537: (9, FIN | ACK)}
        for tick, (client, flags) in ends.items():
            packets.append((tick, packet(28, b"", flags, clients[client])))
        packets.sort(key=lambda one: one[0])
        text, said = self.convert(pcap(packets))
        records = []
        for tick, number in enumerate([*range(65536), 2, 5, 9]):
            records += [(tick, number, GET)] + ([(tick, ends[tick][0])] if tick in ends else [])
        self.assertEqual(text, traffic(*records))
        self.assertIn("65542 records, 65539 connections, %d bytes; a traffic text, since a capture ends at 65536 "
                      "connections;" % (65539 * len(GET)), said)

    def test_numbers_are_given_again(self):
        clients = [(bytes([10, 0, 0, number]), 4000) for number in range(6)]
        packets = [(0, packet(1, GET, ACK, clients[0])), (1, packet(1, GET, ACK, clients[1])),
                   (2, packet(0, GET[:5], SYN, clients[2])), (3, packet(28, b"", RST, clients[1])),
                   (4, packet(28, b"", FIN | ACK, clients[0])), (5, packet(1, GET, ACK | FIN, clients[3])),
                   (6, packet(1, GET, ACK, clients[4])), (7, packet(1, GET, ACK, clients[5])),
                   (8, packet(6, GET[5:], ACK, clients[2])), (9, packet(40, b"", SYN, clients[4])),
                   (10, packet(41, GET, ACK, clients[4]))]
        packets = [(tick + 250000, data) for tick, data in packets]
        records = [(0, 0, GET), (1, 1, GET), (2, 2, GET[:5]), (3, 1), (4, 0), (5, 0, GET), (5, 0), (6, 0, GET),
                   (7, 1, GET), (8, 2, GET[5:]), (9, 0), (10, 0, GET)]
        self.assertEqual(self.convert(pcap(packets), "--format", "traffic")[0], traffic(*records))
        tiers = ["--tier", "10.0.0.0=1", "--tier", "10.0.0.4=2"]
        text, _ = self.convert(pcap(packets), "--format", "traffic", *tiers)
        tiered = [("tier", 0, 1), *records[:7], ("tier", 0, 2), *records[7:11], ("tier", 0, 2), records[11]]
        self.assertEqual(text, traffic(*tiered))
        numbers = [0, 1, 2, 1, 0, 3, 3, 4, 5, 2, 4, 6]
        self.assertEqual(self.convert(pcap(packets))[0],
                         capture(*((tick, number, *data) for (tick, _, *data), number in zip(records, numbers))))

    def drawn_packets(self, drawn, count, most):
        """Packets of so many connections, at most so many of them open at once, and what each of them sends: its own
        number again and again. Half of their ports are used again at once."""
        packets, texts, ports, waiting, tick, begun = [], [], list(range(5000, 5000 + most)), [], 0, 0
        while begun < count or waiting:
            tick += drawn.choice((0, 1, 40))
            if begun < count and ports and (not waiting or drawn.random() < 0.5):
                data = b"".join(b"GET /%d HTTP/1.1\r\nHost: a\r\n\r\n" % begun for _ in range(drawn.choice((1, 1, 3))))
                port = ports.pop(drawn.choice((0, -1)))
                waiting.append([(CLIENT[0], port), drawn.randrange(2**32), data])
                texts.append(data)
                packets.append((tick, packet(waiting[-1][1] - 1, b"", SYN, waiting[-1][0])))
                begun += 1
                continue
            client, sequence, data = one = drawn.choice(waiting)
            sent = data[:drawn.choice((5, 30, len(data)))]
            ends = len(sent) == len(data)
            packets.append((tick, packet(sequence, sent, drawn.choice((FIN | ACK, RST)) if ends else ACK, client)))
            one[1:] = sequence + len(sent), data[len(sent):]
            if ends:
                waiting.remove(one)
                ports.append(client[1])
        return packets, texts

    def test_no_number_is_given_to_two_connections_at_once(self):
        for seed in range(8):
            drawn = random.Random(seed)
            packets, texts = self.drawn_packets(drawn, 300, 9)
            for words in ((), ("--format", "traffic"), ("--format", "traffic", "--tier", "/1=1")):
                with unittest.mock.patch.object(capture_writer, "CONNECTIONS_LIMIT", 9):
                    text, _ = self.convert(pcap(packets), *words)
                self.assertTrue(text.startswith(b"haboob-traffic 1 "))
                records = [record for record in read_capture(text)[1] if record[0] != "tier"]
                self.assertLess(max(record[1] for record in records), 9)
                self.assertEqual(sorted(texts_of_lives(records)), sorted(texts))
            text, _ = self.convert(pcap(packets))
            self.assertEqual(list(texts_of(read_capture(text)[1]).values()).count(b""), 0)
            self.assertEqual(sorted(texts_of(read_capture(text)[1]).values()), sorted(texts))

    def test_an_output_that_is_a_pipe(self):
        packets = [(tick, packet(1, GET, ACK, (struct.pack(">I", tick), 4000))) for tick in range(4)]
        os.mkfifo(os.path.join(self.folder, "pipe"))
        for words, begin in (([], b"haboob-capture 2"), (["--format", "traffic"], b"haboob-traffic 1")):
            command = [os.path.join(TOOLS, "capture_from_pcap.py"), "--port", "80", *words, "--output",
                       os.path.join(self.folder, "pipe"), self.stored(pcap(packets))]
            with subprocess.Popen([sys.executable, *command], stderr=subprocess.DEVNULL) as tool:
                with open(os.path.join(self.folder, "pipe"), "rb") as pipe:
                    text = pipe.read()
            self.assertEqual(tool.returncode, 0)
            self.assertEqual(text, capture(*((tick, tick, GET) for tick in range(4)), begin=begin))

    def test_tiers(self):
        clients = [(bytes([10, number, 0, 1]), 4000) for number in range(4)]
        targets = [b"/", b"/api/x", b"/a.css", b"/api/y"]
        gets = [GET.replace(b"/ ", target + b" ") for target in targets]
        packets = [(tick, packet(1, get, ACK, client)) for tick, (get, client) in enumerate(zip(gets, clients))]
        packets += [(4, packet(1, gets[0], ACK, CLIENT6, SERVER6)), (5, packet(0, gets[1][:8], SYN, (CLIENT[0], 4001))),
                    (6, packet(9, gets[1][8:], ACK, (CLIENT[0], 4001)))]
        words = ["--tier", "10.3.0.0/16=0", "--tier", "/api/=2", "--tier", "~[.]css$=3", "--tier", "::1=1"]
        self.expect(packets, (0, 0, gets[0]), ("tier", 1, 2), (1, 1, gets[1]), ("tier", 2, 3), (2, 2, gets[2]),
                    (3, 3, gets[3]), ("tier", 4, 1), (4, 4, gets[0]), (5, 5, gets[1][:8]), (6, 5, gets[1][8:]),
                    words=words, said="note: 1 connections whose first bytes hold no whole request line, for --tier")

    def test_the_first_tier_that_fits(self):
        words = ["--tier", "10.0.0.1=3", "--tier", "10.0.0.0/8=2", "--tier", "/=1"]
        other = (bytes([10, 9, 9, 9]), 4000)
        self.expect([(0, packet(1, GET)), (1, packet(1, GET, ACK, other)), (2, packet(1, GET, ACK, CLIENT6, SERVER6)),
                     (3, packet(28, GET))],
                    ("tier", 0, 3), (0, 0, GET), ("tier", 1, 2), (1, 1, GET), ("tier", 2, 1), (2, 2, GET), (3, 0, GET),
                    words=words, said="7 records, 3 connections, 108 bytes")

    def test_kinds_of_files(self):
        packets = [(250000, packet(99, b"", SYN)), (250007, packet(100, GET)),
                   (250009, packet(1, GET, ACK, CLIENT6, SERVER6))]
        expected = capture((7, 0, GET), (9, 1, GET))
        cooked = [(tick, bytes(2) + frame(data)) for tick, data in packets]
        cooked_again = [(tick, frame(data)[12:14] + bytes(18) + data) for tick, data in packets]
        for name, data in [("big-endian", pcap(packets, ">")), ("nanoseconds", pcap(packets, "<", 10**9)),
                           ("raw", pcap(packets, link=101)), ("cooked", pcap(cooked, link=113)),
                           ("cooked, version 2", pcap(cooked_again, link=276)), ("pcapng", pcapng(packets))]:
            with self.subTest(name):
                self.assertEqual(self.convert(data)[0], expected)

    def test_cut_and_broken_files(self):
        whole = pcap([(0, packet(1, GET)), (5, packet(28, GET))])
        self.assertEqual(len(whole), 24 + 2 * (16 + 81))
        for data, fault in [(whole[:-3], "cut at byte 215"), (whole[:-81], "cut at byte 137"),
                            (whole[:-87], "cut at byte 131"),
                            (whole[:-89] + b"\xff" * 8 + whole[-81:], "broken before byte 137")]:
            with self.subTest(fault):
                _, said = self.convert(data, status=1)
                self.assertEqual(said, "capture_from_pcap: %s: %s; nothing is written: --lenient writes what there "
                                 "is\n" % (self.input, fault))
                text, said = self.convert(data, "--lenient")
                self.assertEqual(text, capture((0, 0, GET)))
                self.assertEqual(said.splitlines()[-1], "capture_from_pcap: %s: %s" % (self.input, fault))

    def test_files_that_are_none(self):
        for data, said in [(b"", "input: empty\n"),
                           (b"some text that is longer than a head\n", "input: this is text; if it is an access log, "
                            "tools/capture_from_log.py reads it\n"),
                           (b"haboob-capture 2 784111777\nstop 0\n", "input: this is a capture already\n"),
                           (b"haboob-traffic 1 784111777\nstop 0\n", "input: this is a traffic text already\n"),
                           (bytes(100), "input: no pcap and no pcapng\n"),
                           (b"\xd4\xc3\xb2\xa1", "input: cut at byte 4\n"),
                           (pcap([], link=147), "input: packets of a kind of link that isn't known, 147\n"),
                           (pcap([(0, packet(1, GET, ACK, CLIENT, (SERVER[0], 81)))]),
                            "input: no packet to a given port in the given time\n"),
                           (pcapng([(0, packet(1, GET))])[:40], "input: cut at byte 40\n")]:
            for words in ([], ["--lenient"]):
                _, line = self.convert(data, *words, status=1)
                self.assertTrue(line.endswith(said), line)
                self.assertEqual(line.count("\n"), 1)

    def test_nothing_to_take(self):
        """The older capture stands (run_tool sees to that)."""
        hello = b"\x16\x03\x01\x02\x00\x01"
        other = (CLIENT[0], 4001)
        cut = "1 connections ended by packets that were cut when they were recorded"
        begun = "2 connections whose begin isn't in the file, and of which no packet begins with a request line"
        tls = [(0, packet(99, b"", SYN)), (1, packet(100, hello)), (2, packet(99, b"", SYN, other)),
               (3, packet(100, hello, ACK, other))]
        earlier = [(0, packet(100, b"x")), (1, packet(100, b"y", ACK, other)), (2, packet(101, b"", FIN))]
        lost = [(0, packet(99, b"", SYN)), (1, packet(100, GET))]
        for data, words, said in [
                (pcap(tls), [], NOTHING + " (2 connections of TLS)"),
                (pcap([(0, packet(99, b"", SYN)), (1, packet(99, b"", SYN, other)), (2, packet(100, b"", FIN))]), [],
                 NOTHING),
                (pcap(earlier), [], NOTHING + " (%s)" % begun),
                (pcap([(0, packet(100, GET)), (10**6, packet(127, GET))]), ["--from", str(START + 1)],
                 NOTHING + " (1 connections begun before --from)"),
                (pcap(lost, size=54), [], NOTHING + " (%s); record whole packets: tcpdump -s 0" % cut),
                (pcap(lost)[:-3], [], "cut at byte %d" % (len(pcap(lost)) - 3))]:
            for lenient in ([], ["--lenient"]):
                _, line = self.convert(data, *words, *lenient, status=1)
                self.assertEqual(line, "capture_from_pcap: %s: %s\n" % (self.input, said))

    def test_packets_without_a_time(self):
        """Simple Packet Blocks of a pcapng (PCAP Next Generation Capture File Format, 4.4)."""
        frames = [frame(packet(1, GET)), frame(packet(28, GET))]
        simple = [block(3, struct.pack("<I", len(data)) + data) for data in frames]
        timed = pcapng([(0, packet(0, GET, SYN, (CLIENT[0], 4001)))])
        text, said = self.convert(timed + b"".join(simple))
        self.assertEqual(text, capture((0, 0, GET)))
        self.assertEqual(said, "capture_from_pcap: 1 records, 1 connections, 27 bytes; left out: 2 packets without a "
                         "time in Simple Packet Blocks\n")
        _, said = self.convert(pcapng([]) + b"".join(simple), status=1)
        self.assertEqual(said, "capture_from_pcap: %s: no packet to a given port in the given time (2 packets without "
                         "a time in Simple Packet Blocks)\n" % self.input)

    def test_a_syn_again_after_the_end(self):
        first = [(0, packet(99, b"", SYN)), (1, packet(100, GET)), (2, packet(127, b"", FIN))]
        again = [(tick + 10, data) for tick, data in first]
        self.expect(first + again, (1, 0, GET), (2, 0))
        # A new connection of the same client's port has numbers of its own, and what was sent before comes once more.
        new = [(20, packet(499_000_000, b"", SYN)), (21, packet(499_000_001, GET)), (22, packet(100, GET)),
               (23, packet(99, b"", SYN)), (24, packet(499_000_028, GET)), (25, packet(499_000_055, b"", FIN))]
        self.expect(first + again + new, (1, 0, GET), (2, 0), (21, 1, GET), (24, 1, GET), (25, 1))
        # After a reset the same; and a new connection whose SYN isn't in the file.
        reset = [*first[:2], (2, packet(127, b"", RST)), *again[:2], (20, packet(499_000_000, GET))]
        self.expect(reset, (1, 0, GET), (2, 0), (20, 1, GET))

    def test_each_packet_twice(self):
        one = [(0, packet(99, b"", SYN)), (10, packet(100, GET)), (20, packet(127, GET)), (30, packet(154, b"", FIN))]
        self.expect(sorted(one + [(tick + 3, data) for tick, data in one]), (10, 0, GET), (20, 0, GET), (30, 0))
        self.expect(one + [(tick + 40, data) for tick, data in one], (10, 0, GET), (20, 0, GET), (30, 0))

    def test_packets_that_were_cut(self):
        other, third = (CLIENT[0], 4001), (CLIENT[0], 4002)
        long = GET[:-2] + b"Cookie: " + b"x" * 50 + b"\r\n\r\n"
        packets = [(0, packet(99, b"", SYN)), (1, packet(100, GET)), (2, packet(127, long)), (3, packet(127, long)),
                   (4, packet(127 + len(long), GET)), (5, packet(99, b"", SYN, other)),
                   (6, packet(100, long, ACK, other)),
                   (7, packet(1, GET, ACK, third)), (8, packet(0, b"y" * 500, ACK, SERVER, third))]
        kept = 96 - 14 - 40  # bytes of a packet's segment
        records = [(1, 0, GET), (2, 0, long[:kept]), (2, 0), (6, 1, long[:kept]), (6, 1), (7, 2, GET)]
        data = pcap(packets, size=96)
        _, said = self.convert(data, status=1)
        self.assertEqual(said, "capture_from_pcap: 2 connections ended by packets that were cut when they were "
                         "recorded; record whole packets: tcpdump -s 0; nothing is written: --lenient writes what "
                         "there is\n")
        text, said = self.convert(data, "--lenient")
        self.assertEqual(text, capture(*records))
        self.assertIn("2 connections ended by packets that were cut", said.splitlines()[-1])

    def test_ipv6_packets_that_were_cut(self):
        packets = [(0, packet(99, b"", SYN, CLIENT6, SERVER6)), (1, packet(100, GET, ACK, CLIENT6, SERVER6))]
        for made in (pcap, pcapng):
            _, said = self.convert(made(packets, size=80), status=1)
            self.assertIn("1 connections ended by packets that were cut", said)

    def test_cut_packets_of_a_length_that_they_do_not_tell(self):
        # A packet that a network card was to divide has the length 0; then the length on the wire counts.
        data = bytearray(packet(100, GET + bytes(100)))
        data[2:4] = b"\0\0"
        _, said = self.convert(pcap([(0, packet(99, b"", SYN)), (1, bytes(data))], size=90), status=1)
        self.assertIn("1 connections ended by packets that were cut", said)

    def test_a_recording_begun_within_connections(self):
        post = b"POST / HTTP/1.1\r\nHost: a\r\nContent-Length: 9\r\n\r\nGET /gone"
        one, two, three = ((CLIENT[0], 4000 + number) for number in range(3))
        self.expect([(0, packet(500, post[30:], ACK, one)), (1, packet(500, b"\x17\x03\x03", ACK, two)),
                     (2, packet(500, b" / HTTP/1.1\r\n\r\n", ACK, three)),
                     (3, packet(500 + len(post) - 30, GET, ACK, one)), (4, packet(517, b"", FIN, three))],
                    (3, 0, GET), said="left out: 2 connections whose begin isn't in the file, and of which no packet "
                    "begins with a request line; note: 1 connections whose begin isn't in the file, taken from")

    def test_tags_of_vlans(self):
        tagged = b"\x81\x00\x00\x07"
        expected = capture((7, 0, GET), (9, 1, GET))
        packets = [(250000, packet(99, b"", SYN)), (250007, packet(100, GET)),
                   (250009, packet(1, GET, ACK, CLIENT6, SERVER6))]
        for tags in (tagged, b"\x88\xa8\x00\x01" + tagged):
            self.assertEqual(self.convert(pcap(packets, tags=tags))[0], expected)
            cooked = [(tick, bytes(2) + frame(data, tags)) for tick, data in packets]
            self.assertEqual(self.convert(pcap(cooked, link=113))[0], expected)

    def test_several_files_in_any_order(self):
        packets = [(tick * 250000, packet(100 + 27 * tick, GET)) for tick in range(12)]
        expected = capture(*((tick * 250000, 0, GET) for tick in range(12)))
        parts = [pcap(packets[:4]), gzip.compress(pcap(packets[4:5])), bz2.compress(pcapng(packets[5:9])),
                 lzma.compress(pcap(packets[9:], "<", 10**9))]
        paths = [os.path.join(self.folder, "packets.%d" % number) for number in range(len(parts))]
        for path, part in zip(paths, parts):
            with open(path, "wb") as file:
                file.write(part)
        for order in ((0, 1, 2, 3), (3, 2, 1, 0), (2, 0, 3, 1)):
            text, _ = self.convert([paths[number] for number in order])
            self.assertEqual(text, expected)

    def test_fields_that_are_taken_out(self):
        body = b"If-None-Match: kept\r\n\r\n"
        head = (b"POST / HTTP/1.1\r\nHost: a\r\nif-none-match: \"x\"\r\n  continued\r\nAccept: */*\r\n"
                b"Content-Length: %d\r\nCookie: c\r\n\r\n" % len(body))
        kept = b"POST / HTTP/1.1\r\nHost: a\r\nAccept: */*\r\nContent-Length: %d\r\n\r\n" % len(body)
        sent = head + body + GET
        words = ["--without", "If-None-Match", "--without", "cookie"]
        self.expect([(0, packet(99, b"", SYN)), (1, packet(100, sent))], (1, 0, kept + body + GET), words=words)
        # Cut after each byte: each message ends at the same tick.
        for at in range(1, len(sent)):
            text, _ = self.convert(pcap([(0, packet(99, sent[:at], SYN)), (5, packet(100 + at, sent[at:]))]), *words)
            _, records = read_capture(text)
            self.assertEqual(texts_of(records), {0: kept + body + GET})
            first = b"".join(data for tick, _, data in records if tick == 0)
            self.assertTrue((kept + body + GET).startswith(first))
            self.assertEqual(first.count(b"\r\n\r\n"), sent[:at].count(b"\r\n\r\n"))

    CHUNKS = b"5;x=y\r\nGET /\r\nA\r\n0123456789\r\n0\r\nTrailer: x\r\n\r\n"  # RFC 9112, 7.1
    HEAD = b"POST /u?v HTTP/1.1\r\nHost: a\r\n%bAccept: */*\r\n\r\n"
    UPLOADS = {  # what is sent, and what is written of it
        "chunks": (HEAD % b"Transfer-Encoding: gzip, Chunked\r\n" + CHUNKS, HEAD % b""),
        "chunks and a length": (HEAD % b"transfer-encoding: chunked\r\nContent-Length: 3\r\n" + CHUNKS, HEAD % b""),
        "a long body": (HEAD % b"Content-length:  065537 \r\n" + b"\r\nx" * 21845 + b"xx", HEAD % b""),
        "a long head": (HEAD % (b"Cookie: %b\r\nX: y\r\n z\r\nIf-None-Match: x\r\nContent-Length: 3\r\n" % (
            b"c" * 9000)) + b"abc",
            b"POST /u?v HTTP/1.1\r\nHost: a\r\nIf-None-Match: x\r\nContent-Length: 3\r\n\r\nabc"),
    }

    def test_uploads(self):
        """A request that a replay would refuse, and what follows it on its connection; by the program where it is
        built: 405 of a POST (docs/RULES.md, Methods and targets), 200 of a GET."""
        for name, (sent, kept) in self.UPLOADS.items():
            with self.subTest(name):
                packets = [(0, packet(99, b"", SYN))]
                packets += [(1, packet(100 + at, (sent + GET)[at:at + 60_000]))
                            for at in range(0, len(sent + GET), 60_000)]
                text, said = self.convert(pcap(packets))
                self.assertEqual(texts_of(read_capture(text)[1]), {0: kept + GET})
                self.assertIn("note: 1 requests with a body in chunks or above 65,536 bytes, or a head above 8,192, "
                              "written without\n", said)
                self.expect_counts("bypassed 0", "status 200 1", "status 405 1")
                text, said = self.convert(pcap(packets), "--as-recorded")
                self.assertEqual(texts_of(read_capture(text)[1]), {0: sent + GET})
                self.assertNotIn("note", said)
                self.expect_counts("bypassed 1", "status 200 0", "status 405 0")

    def expect_counts(self, *lines):
        """Expects these lines of the report of the capture that was written."""
        if os.path.exists(test_support.PROGRAM):
            words = [test_support.PROGRAM, "replay", "--snapshot", test_support.SNAPSHOT, "--capture", self.output,
                     "--replies", "/dev/null"]
            report = subprocess.run(words, stdout=subprocess.PIPE, check=True, timeout=60).stdout.decode().splitlines()
            self.assertLessEqual(set(lines), set(report))

    def test_uploads_cut_anywhere(self):
        """The request comes where its body ends."""
        sent, kept = self.UPLOADS["chunks"]
        for at in range(1, len(sent), 4):
            text, _ = self.convert(pcap([(0, packet(99, sent[:at], SYN)), (5, packet(100 + at, sent[at:] + GET))]))
            _, records = read_capture(text)
            self.assertEqual(texts_of(records), {0: kept + GET})
            first = b"".join(data for tick, _, data in records if tick == 0)
            self.assertTrue(kept.startswith(first) and b"\r\n\r\n" not in first)

    def test_bodies_that_stay(self):
        """Bodies that a replay reads over, and what it would refuse for something else; a body that has no end."""
        sound = self.HEAD % b"Content-Length: 65536\r\n" + b"\n" * 65536
        for sent in (sound, self.HEAD % b"Content-Length: 5\r\nTransfer-Encoding: chunked\r\n" + self.CHUNKS,
                     self.HEAD % b"Transfer-Encoding: identity\r\n", b"\r\n\r\n" + GET, b"GET /" + b"x" * 70_000,
                     self.HEAD % (b"A: %b\r\n" % (b"x" * (8192 - len(self.HEAD % b"A: \r\n")))),
                     self.HEAD % b"Content-Length: 70000x\r\n", b"\0" * 100_000):
            packets = [(0, packet(99, b"", SYN)), *((1, packet(100 + at, sent[at:at + 1400]))
                                                    for at in range(0, len(sent), 1400))]
            text, said = self.convert(pcap(packets))
            self.assertEqual(texts_of(read_capture(text)[1]), {0: sent})
            self.assertNotIn("note", said)
        broken = self.HEAD % b"Transfer-Encoding: chunked\r\n" + b"5\r\nabcde\r\nnone\r\n"
        self.expect([(0, packet(99, b"", SYN)), (1, packet(100, broken + GET))], (1, 0, self.HEAD % b""),
                    said="1 connections ended by a body whose chunks are broken")
        cut = self.HEAD % b"Transfer-Encoding: chunked\r\n" + b"5\r\nab"
        self.expect([(0, packet(99, b"", SYN)), (1, packet(100, cut, FIN | ACK))],
                    (1, 0, (self.HEAD % b"")[:-2]), (1, 0))

    def test_a_long_head_in_several_packets(self):
        """Of a field that came in the first ones a part stays."""
        sent = self.UPLOADS["a long head"][0]
        packets = [(at, packet(100 + at, sent[at:at + 1400])) for at in range(0, len(sent), 1400)]
        begin = sent[:2800]  # of the first 4,096 bytes what packets brought
        text, _ = self.convert(pcap([(0, packet(99, b"", SYN)), *packets]))
        self.assertEqual(texts_of(read_capture(text)[1]), {
            0: begin + b"\r\nIf-None-Match: x\r\nContent-Length: 3\r\n\r\nabc"})

    def test_served_packets(self):
        text, said = self.run_tool(capture_from_pcap, ["--port", "18101"], "served/nginx.pcap")
        self.assertNotIn("left out", said)
        sent, found = sent_requests("nginx"), requests_in(text)
        self.assertEqual(sorted(line for _, line in found), sorted(line for _, line in sent))
        came = {line: tick for tick, line in found}
        distances = [came[line] - (time - sent[0][0]) for time, line in sent]
        self.assertLess(max(distances) - min(distances), 20_000)

    def test_served_packets_and_log(self):
        # nginx logs milliseconds, and begins to count when it reads the request.
        by_packets, _ = self.run_tool(capture_from_pcap, ["--port", "18101"], "served/nginx.pcap")
        by_log, _ = self.run_tool(capture_from_log, [], "served/nginx_timed.log")
        ticks = [{line: tick for tick, line in requests_in(text)} for text in (by_packets, by_log)]
        apart = [ticks[0][line] - ticks[1][line] for line in ticks[0]]
        self.assertEqual(len(apart), 60)
        self.assertLess(max(apart) - min(apart), 10_000)

    def recorded(self):
        """The head of loopback.pcap and its packets, each with its own head, as bytes."""
        with open(os.path.join(DATA, "loopback.pcap"), "rb") as file:
            text = file.read()
        packets, at = [], 24
        while at < len(text):
            end = at + 16 + struct.unpack_from("<I", text, at + 8)[0]
            packets.append(text[at:end])
            at = end
        return text[:24], packets

    def test_packets_to_the_server_are_enough(self):
        head, packets = self.recorded()
        kept = [head]
        for data in packets:
            ports = 16 + 14 + (40 if data[28:30] == b"\x86\xdd" else 20)
            kept += [data] * (data[ports + 2:ports + 4] == struct.pack(">H", 18098))
        words = ["--port", "18098"]
        whole, _ = self.run_tool(capture_from_pcap, words, "loopback.pcap")
        self.assertLess(sum(map(len, kept)), 0.8 * sum(map(len, packets)))
        self.assertEqual(self.run_tool(capture_from_pcap, words, b"".join(kept))[0], whole)

    def test_recorded_packets_in_rotated_files(self):
        """As tcpdump -C writes them, each with the same head; the older ones are compressed."""
        head, packets = self.recorded()
        third = len(packets) // 3
        parts = [packets[:third], packets[third:2 * third], packets[2 * third:]]
        paths = [os.path.join(self.folder, name) for name in ("site.pcap.gz", "site.pcap1.bz2", "site.pcap2")]
        for path, opened, part in zip(paths, (gzip.open, bz2.open, open), parts):
            with opened(path, "wb") as file:
                file.write(head + b"".join(part))
        whole = self.run_tool(capture_from_pcap, ["--port", "18098"], "loopback.pcap")
        for order in (paths, paths[::-1]):
            self.assertEqual(self.run_tool(capture_from_pcap, ["--port", "18098"], order), whole)

    def test_served_packets_that_were_cut(self):
        _, said = self.run_tool(capture_from_pcap, ["--port", "18101"], "served/nginx_cut.pcap", 1)
        self.assertIn("60 connections ended by packets that were cut", said)

    def test_recorded_packets(self):
        text, said = self.run_tool(capture_from_pcap, ["--port", "18098"], "loopback.pcap")
        with open(os.path.join(DATA, "loopback.expected"), "rb") as file:
            sent, expected = file.read(), {}
        while sent:
            line, _, sent = sent.partition(b"\n")
            length = int(line.split()[1])
            expected[len(expected)], sent = sent[:length], sent[length + 1:]
        start, records = read_capture(text)
        self.assertEqual(texts_of(records), expected)
        self.assertEqual([len(record) for record in records].count(2), len(expected))
        self.assertNotIn("left out", said)
        # As tcpdump prints them: the first packet is of 1795413683.729465, the first request of 1795413683.734921.
        self.assertEqual((start, records[0][0]), (1795413683, 5456))


class Faults(test_support.ToolTest):
    """What is said and what stands where words or files are odd"""

    TOOL = os.path.join(TOOLS, "capture_from_pcap.py")

    def test_an_output_that_is_the_input(self):
        with open(self.output, "wb") as file:
            file.write(b"text")
        os.link(self.output, self.input)
        said = self.run_program(self.TOOL, "--port", "80", "--output", self.output, self.input)
        self.assertEqual(said, (2, "capture_from_pcap: %s: the output is the input; give it another name\n"
                                % self.output))
        with open(self.output, "rb") as file:
            self.assertEqual(file.read(), b"text")

    def test_a_library_that_is_missing(self):
        said = self.run_program("-S", self.TOOL)
        self.assertEqual(said, (2, "capture_from_pcap: needs dpkt: apt-get install python3-dpkt\n"))

    def test_standard_input(self):
        with open(os.path.join(DATA, "loopback.pcap"), "rb") as file:
            said = self.run_program(self.TOOL, "--port", "18098", "--output", self.output, "-", stdin=file)
        self.assertEqual(said, (0, "capture_from_pcap: 131 records, 15 connections, 54588 bytes\n"))
        with open(self.output, "rb") as file:
            self.assertEqual(len(texts_of(read_capture(file.read())[1])), 15)

    def test_progress_without_a_terminal(self):
        with unittest.mock.patch("haboob_tools.tool_run.PROGRESS_STEP", 0.0):
            _, said = self.run_tool(capture_from_pcap, ["--port", "18098"], "loopback.pcap")
        self.assertRegex(said, r"(?m)^capture_from_pcap: 100% .*\[\d\d:\d\d<.*\]$")

    def test_a_full_disk(self):
        words = [self.TOOL, "--port", "18098", "--output", "/dev/full", os.path.join(DATA, "loopback.pcap")]
        self.assertEqual(self.run_program(*words), (1, "capture_from_pcap: /dev/full: No space left on device\n"))


if __name__ == "__main__":
    unittest.main()
