"""The texts that the program reads, as docs/FORMATS.md has them: snapshots, recordings and tables of settings."""

# Sun, 06 Nov 1994 08:49:37 GMT: the time of files, and the start of recordings, where no other is given.
TIME = 784111777
# How a recording begins: a capture, a newer one, a traffic text.
ONE, TWO, TRAFFIC = b"haboob-capture 1 ", b"haboob-capture 2 ", b"haboob-traffic 1 "
HEADER, HEADER_TWO, HEADER_TRAFFIC = (b"%s%d\n" % (begin, TIME) for begin in (ONE, TWO, TRAFFIC))
REQUEST = b"GET /a.txt HTTP/1.1\r\nHost: a\r\n\r\n"
CLOSING = REQUEST[:-2] + b"Connection: close\r\n\r\n"
# All are admitted.
OPEN = b"[policy]\ndepth = 1000000\nrate = 1000000000\nrate_max = 1000000000\n"


def file_parts(name, data, time=TIME):
    """The lines of a file in a snapshot, and what stands between them."""
    return [b"file %d %d %d\n" % (time, len(name), len(data)), name, b"\n", data, b"\n", b""]


def snapshot_parts(files):
    """The lines of a snapshot of these files, each followed by what stands up to the next one; each file has a name,
    its bytes, and where it isn't TIME its time."""
    return [b"haboob-snapshot 1\n", b"", *(part for file in files for part in file_parts(*file)),
            b"end %d\n" % len(files)]


def snapshot_text(files):
    return b"".join(snapshot_parts(files))


SNAPSHOT = snapshot_text([(b"a.txt", b"hi\n")])


def record_parts(record):
    """The line of a record, and what follows it: of a piece (tick, connection, bytes), an end (tick, connection), or a
    tier ("tier", connection, tier)."""
    tick, conn, *rest = record
    if tick == "tier":
        return [b"tier %d %d\n" % (conn, *rest), b""]
    if rest:
        return [b"piece %d %d %d\n" % (tick, conn, len(rest[0])), rest[0] + b"\n"]
    return [b"end %d %d\n" % (tick, conn), b""]


def piece(tick, conn, data):
    return b"".join(record_parts((tick, conn, data)))


def recording_parts(records, begin=ONE, start=TIME):
    """The lines of a recording of these records, each followed by what stands up to the next one."""
    return [b"%s%d\n" % (begin, start), b"", *(part for record in records for part in record_parts(record)),
            b"stop %d\n" % len(records)]


def recording_text(records, begin=ONE, start=TIME):
    return b"".join(recording_parts(records, begin, start))


def write_counted(path, first, texts, last):
    """Writes a text whose parts are too many to be held, between its first line and a last one that counts them; how
    many there were."""
    with open(path, "wb") as file:
        file.write(first)
        count = 0
        for text in texts:
            file.write(text)
            count += 1
        file.write(b"%s %d\n" % (last, count))
    return count


def table_text(table, **values):
    """A table of settings."""
    return b"[%s]\n" % table.encode() + "".join("%s = %s\n" % pair for pair in values.items()).encode()
