"""Reads the TCP segments of recorded packets, and puts what one side of a connection sends in order."""
import collections
import heapq
import struct

from . import packet_files
from .packet_files import dpkt
from .tool_run import Fault

WAITING_LIMIT = 1_048_576  # bytes of one side that may wait for those before them
SEQUENCES = 2**32
UNREADABLE = "packets that can't be read"

# How the packets of each kind of link are read (the numbers of www.tcpdump.org/linktypes.html).
LINKS = {
    0: dpkt.loopback.Loopback, 1: dpkt.ethernet.Ethernet, 108: dpkt.loopback.Loopback, 113: dpkt.sll.SLL,
    276: dpkt.sll2.SLL2, 228: dpkt.ip.IP, 229: dpkt.ip6.IP6,
}
RAW_LINKS = (12, 14, 101)  # IPv4 or IPv6 without anything before it
COOKED = (dpkt.sll.SLL, dpkt.sll2.SLL2)
TAGS = (dpkt.ethernet.ETH_TYPE_8021Q, dpkt.ethernet.ETH_TYPE_8021AD)
# Source and destination are pairs of address and port; sequence and acknowledgment are those of RFC 9293, 3.1; cut are
# the bytes at the end of the data that aren't in the file.
Segment = collections.namedtuple("Segment", "source destination sequence acknowledgment flags data cut")


class Stream:
    """What one side of a connection sends, put in order.

    A byte's place is its distance from the first byte. So sequence numbers may wrap (RFC 9293, 3.4).
    """

    def __init__(self, sequence):
        """Takes the first byte's sequence number."""
        self.first = sequence % SEQUENCES
        self.place = 0  # of the next byte in order
        self.waiting = []  # a heap of places and bytes after the next byte
        self.waiting_bytes = 0
        self.end = None  # the place of the FIN
        self.cut = 0  # the place after the bytes that were cut

    def place_of(self, sequence):
        """The place of a sequence number: of all places it may have, the one nearest to the next byte."""
        distance = (sequence - self.first - self.place) % SEQUENCES
        return self.place + (distance - SEQUENCES if distance >= SEQUENCES // 2 else distance)

    def holds(self, sequence):
        """Whether a sequence number is of this connection: among those that came, or not far from them."""
        return -WAITING_LIMIT <= self.place_of(sequence) <= self.place + WAITING_LIMIT

    def take(self, segment):
        """Takes a segment, and returns the bytes that are now in order. After a FIN there is nothing to be taken."""
        place = self.place_of(segment.sequence + (segment.flags & dpkt.tcp.TH_SYN != 0))
        end = place + len(segment.data) + segment.cut
        if segment.cut:
            self.cut = max(self.cut, end)
        if segment.flags & dpkt.tcp.TH_FIN:
            self.end = end
        if place + len(segment.data) > self.place and (self.end is None or place <= self.end):
            heapq.heappush(self.waiting, (place, segment.data))
            self.waiting_bytes += len(segment.data)
        ordered = []
        while self.waiting and self.waiting[0][0] <= self.place:
            place, data = heapq.heappop(self.waiting)
            self.waiting_bytes -= len(data)
            ordered.append(data[self.place - place:])
            self.place += len(ordered[-1])
        return b"".join(ordered)

    def has_hole(self):
        """Whether bytes, or the FIN, wait for bytes before them."""
        return bool(self.waiting) or (self.end is not None and self.place < self.end)

    def is_cut(self):
        """Whether bytes that come next, or after those, were cut when they were recorded."""
        return self.cut > self.place

    def is_full(self):
        """Whether more bytes wait than may."""
        return self.waiting_bytes > WAITING_LIMIT

    def is_lost(self, segment):
        """Whether a segment of the other side acknowledges bytes that others wait for: they won't come."""
        return self.has_hole() and bool(segment.flags & dpkt.tcp.TH_ACK) and (
            self.place_of(segment.acknowledgment) > self.place)


def check_link(link):
    """Raises Fault where packets of a kind of link can't be read."""
    if link not in LINKS and link not in RAW_LINKS:
        raise Fault("packets of a kind of link that isn't known, %d" % link)


def decode(link, data):
    """The IP packet that a packet of some kind of link holds; what holds none is returned as it is read."""
    if link in RAW_LINKS:
        return (dpkt.ip6.IP6 if data[:1] >= b"\x60" else dpkt.ip.IP)(data)
    packet = LINKS[link](data)
    if isinstance(packet, COOKED) and packet.ethtype in TAGS:  # as an Ethernet frame has it after its addresses
        packet = dpkt.ethernet.Ethernet(bytes(12) + struct.pack(">H", packet.ethtype) + packet.data)
    return packet if isinstance(packet, (dpkt.ip.IP, dpkt.ip6.IP6)) else packet.data


def is_fragment(packet):
    """Whether an IP packet is a part of one that was cut on its way (RFC 791, 3.2; RFC 8200, 4.5)."""
    if isinstance(packet, dpkt.ip.IP):
        return bool(packet.mf or packet.offset)
    header = packet.extension_hdrs.get(dpkt.ip.IP_PROTO_FRAGMENT)
    return header is not None and bool(header.frag_off or header.m_flag)


def payload_length(packet):
    """The bytes that follow an IP packet's headers, by its own length; None where it tells none (RFC 2675)."""
    if isinstance(packet, dpkt.ip.IP):
        return packet.len - 4 * packet.hl if packet.len else None
    return packet.plen - sum(header.length for header in packet.all_extension_headers) if packet.plen else None


def cut_of(packet, missing):
    """How many of its segment's bytes an IP packet has lost, of so many bytes of the packet that aren't in the file."""
    whole = payload_length(packet)
    if whole is None:
        return missing
    return max(0, whole - 4 * packet.data.off - len(packet.data.data))


def segment_of(packet, left_out):
    """The TCP segment that a packet holds; None where there is none, counted where it can't be read."""
    try:
        decoded = decode(packet.link, packet.data)
        if not isinstance(decoded, (dpkt.ip.IP, dpkt.ip6.IP6)):
            return None
        if is_fragment(decoded):
            left_out["fragments of IP packets"] += 1
            return None
        tcp = decoded.data
        if not isinstance(tcp, dpkt.tcp.TCP):
            left_out[UNREADABLE] += decoded.p == dpkt.ip.IP_PROTO_TCP
            return None
        cut = cut_of(decoded, max(0, packet.length - len(packet.data)))
        return Segment((decoded.src, tcp.sport), (decoded.dst, tcp.dport), tcp.seq, tcp.ack, tcp.flags,
                       bytes(tcp.data), cut)
    except (*packet_files.BROKEN, AttributeError, TypeError, RecursionError):
        left_out[UNREADABLE] += 1
        return None


