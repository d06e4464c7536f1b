"""Reads out of recorded packets when requests came and were answered, without the tools that are checked."""
import collections
import re
import struct

FILE_HEAD, RECORD_HEAD, FRAME_HEAD = 24, 16, 14  # bytes: of a pcap file, of a packet's record, of an Ethernet frame
MICROSECONDS = 0xA1B2C3D4  # how a pcap file begins that tells times in microseconds
NUMBERED = re.compile(rb"GET [^ ]*[?]n=([0-9]+) ")

# The status of an answer, and the microseconds from its request to its last byte.
Answer = collections.namedtuple("Answer", "status took")


def segments(path):
    """The TCP segments of a pcap file of Ethernet and IPv4: the time in microseconds, the ports and the bytes."""
    data = path.read_bytes()
    order = "<>"[data[0] == MICROSECONDS >> 24]
    if struct.unpack_from(order + "I", data)[0] != MICROSECONDS:
        raise ValueError("%s: no pcap file with microseconds" % path)
    place = FILE_HEAD
    while place + RECORD_HEAD <= len(data):
        seconds, rest, size, _ = struct.unpack_from(order + "4I", data, place)
        packet = data[place + RECORD_HEAD + FRAME_HEAD:place + RECORD_HEAD + size]
        place += RECORD_HEAD + size
        segment = packet[4 * (packet[0] & 15):int.from_bytes(packet[2:4], "big") or None]
        source, destination = struct.unpack_from(">2H", segment)
        yield 1_000_000 * seconds + rest, source, destination, segment[4 * (segment[12] >> 4):]


def answers(path, port):
    """The answers to requests by their numbers, `?n=` at the end of the target; each has a connection of its own."""
    asked, found = {}, {}
    for time, source, destination, data in segments(path):
        numbered = NUMBERED.match(data) if destination == port else None
        if numbered:
            asked[source] = int(numbered[1]), time
        elif source == port and data and destination in asked:
            number, begin = asked[destination]
            status = found[number].status if number in found else int(data.split(b" ", 2)[1])
            found[number] = Answer(status, time - begin)
    return found
