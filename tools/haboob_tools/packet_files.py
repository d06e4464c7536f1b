"""Reads the packets of pcap and pcapng files, with their lengths on the wire."""
import collections
import struct

from . import capture_writer, tool_run
from .tool_run import Fault

dpkt = tool_run.library("dpkt")

# A packet: the time in microseconds since 1970, the kind of link, the bytes, and how many it had on the wire.
Packet = collections.namedtuple("Packet", "time link data length")
# What packets of one interface have in common: the kind of link, ticks of its clock in a second, seconds to be added.
Interface = collections.namedtuple("Interface", "link ticks offset")

BLOCK_LIMIT = 16_777_216  # bytes; no packet of a sound file is longer
LINK_BITS = 0x0FFFFFFF  # of the kind of link in a pcap's head; those above tell of checksums
PCAPNG_BEGIN = b"\x0a\x0d\x0d\x0a"
ORDERS = {b"\x4d\x3c\x2b\x1a": "<", b"\x1a\x2b\x3c\x4d": ">"}  # of bytes, by how a section begins
BLOCKS = {  # those of a pcapng that are read, by kind and order of bytes
    (1, "<"): dpkt.pcapng.InterfaceDescriptionBlockLE, (1, ">"): dpkt.pcapng.InterfaceDescriptionBlock,
    (2, "<"): dpkt.pcapng.PacketBlockLE, (2, ">"): dpkt.pcapng.PacketBlock,
    (6, "<"): dpkt.pcapng.EnhancedPacketBlockLE, (6, ">"): dpkt.pcapng.EnhancedPacketBlock,
}
INTERFACE = 1
SIMPLE = 3  # a packet without a time and an interface
TIMELESS = "packets without a time in Simple Packet Blocks"
LITTLE = (dpkt.pcap.PMUDPCT_MAGIC, dpkt.pcap.PMUDPCT_MAGIC_NANO, dpkt.pcap.PACPDOM_MAGIC)
NANOSECONDS = (dpkt.pcap.TCPDUMP_MAGIC_NANO, dpkt.pcap.PMUDPCT_MAGIC_NANO)
BROKEN = (dpkt.Error, struct.error, ValueError, IndexError, OverflowError)


class PacketFile:
    """A file that is read from its begin; refuses to be read where it is cut or has a packet too long."""

    def __init__(self, file):
        self.file = file
        self.ended = False
        self.place = 0  # bytes read

    def read(self, count):
        """The next bytes: so many, or none at the file's end."""
        if not 0 <= count <= BLOCK_LIMIT:
            raise Fault("broken before byte %d" % self.place)
        data = self.file.read(count)
        self.place += len(data)
        if len(data) < count and (data or self.ended):
            raise Fault("cut at byte %d" % self.place)
        self.ended = len(data) < count
        return data


def pcap_packets(file, check_link, _left_out):
    """The packets of a pcap."""
    text = file.read(dpkt.pcap.FileHdr.__hdr_len__)
    head = dpkt.pcap.FileHdr(text)
    record = dpkt.pcap.MAGIC_TO_PKT_HDR[head.magic]
    if head.magic in LITTLE:
        head = dpkt.pcap.LEFileHdr(text)
    link, ticks = head.linktype & LINK_BITS, 10**9 if dpkt.pcap.FileHdr(text).magic in NANOSECONDS else 10**6
    check_link(link)
    while text := file.read(record.__hdr_len__):
        packet = record(text)
        time = packet.tv_sec * capture_writer.TICKS_IN_SECOND + packet.tv_usec * capture_writer.TICKS_IN_SECOND // ticks
        yield Packet(time, link, file.read(packet.caplen), packet.len)


def interface_of(block, order):
    """The interface that a block of a pcapng describes."""
    ticks, offset = 10**6, 0
    for option in block.opts:
        if option.code == dpkt.pcapng.PCAPNG_OPT_IF_TSRESOL:
            ticks = (2 if option.data[0] & 0x80 else 10) ** (option.data[0] & 0x7F)
        elif option.code == dpkt.pcapng.PCAPNG_OPT_IF_TSOFFSET:
            offset, = struct.unpack(order + "q", option.data)
    return Interface(block.linktype, ticks, offset)


def pcapng_packets(file, check_link, left_out):
    """The packets of a pcapng: those of all its interfaces, each by its own clock and kind of link."""
    interfaces, order = [], None
    while head := file.read(8):
        if head[:4] == PCAPNG_BEGIN:
            head += file.read(4)
            interfaces, order = [], ORDERS[head[8:]]
        kind, length = struct.unpack(order + "II", head[:8])
        text = head + file.read(length - len(head))
        block = BLOCKS[kind, order](text) if (kind, order) in BLOCKS else None
        left_out[TIMELESS] += kind == SIMPLE
        if kind == INTERFACE:
            interfaces.append(interface_of(block, order))
        elif block is not None:
            link, ticks, offset = interfaces[block.iface_id]
            check_link(link)
            since = ((block.ts_high << 32) + block.ts_low) * capture_writer.TICKS_IN_SECOND // ticks
            yield Packet(since + offset * capture_writer.TICKS_IN_SECOND, link, block.pkt_data, block.pkt_len)


def packets(one, check_link, left_out):
    """The packets of an input; raises Fault where it is neither pcap nor pcapng, cut, or broken.

    `check_link` is given the number of each kind of link, and raises Fault where it isn't known. Packets without a time
    are counted in `left_out`.
    """
    file = PacketFile(one)
    read = pcapng_packets if one.first.startswith(PCAPNG_BEGIN) else pcap_packets
    try:
        yield from read(file, check_link, left_out)
    except KeyError:
        raise Fault("no pcap and no pcapng") from None
    except BROKEN:
        raise Fault("broken before byte %d" % file.place) from None
