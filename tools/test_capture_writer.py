#!/usr/bin/python3
"""Tests of capture_writer.py, near the limits of a capture and of a traffic text, and of how it counts messages.

    python3 tools/test_capture_writer.py
"""
import os
import tempfile
import unittest

from test_support import GET, START, capture, read_capture, traffic

from haboob_tools import capture_writer


class Limits(unittest.TestCase):
    """capture_writer.py, near the limits of a capture and of a traffic text"""

    def setUp(self):
        self.file = tempfile.TemporaryFile()
        self.addCleanup(self.file.close)

    def writer(self, word="2"):
        """A writer of a format, or of what has room."""
        return capture_writer.CaptureWriter(self.file, START * 10**6, word)

    def text(self, writer):
        """What a writer wrote."""
        writer.stop()
        self.file.seek(0)
        return self.file.read()

    def written(self, writer):
        """The records that a writer wrote."""
        return read_capture(self.text(writer))[1]

    def test_greatest_tick(self):
        for word in ("2", "traffic", None):
            self.file.seek(0)
            self.file.truncate()
            writer = self.writer(word)
            writer.connect(0)
            writer.piece(10**15, 0, GET)
            writer.piece(10**15 + 1, 0, GET)
            writer.end(10**15 + 1, 0)
            records = ((10**15, 0, GET),)
            self.assertEqual(self.text(writer), traffic(*records) if word == "traffic" else capture(*records))
            self.assertEqual(dict(writer.left_out), {"records beyond tick 1000000000000000": 2})
            self.assertNotIn("--format", writer.faults()[0])

    def test_most_messages(self):
        writer = self.writer()
        writer.connect(0)
        for _ in range(1024):
            writer.piece(0, 0, b"G /\n\n" * 1024)
        writer.piece(0, 0, b"G /\n")
        writer.piece(0, 0, b"\n")
        records = self.written(writer)
        self.assertEqual(b"".join(data for _, _, data in records).count(b"\n\n"), 1048576)
        self.assertEqual((len(records), records[-1], writer.messages), (1025, (0, 0, b"G /\n"), 1048576))
        self.assertIn("(1 records beyond 1048576 messages); take a part of the time by --from and --to, or a traffic "
                      "text by --format traffic", writer.faults()[0])

    def test_more_messages_than_a_capture_has(self):
        writer = self.writer(None)
        writer.connect(0)
        for _ in range(1024):
            writer.piece(0, 0, b"G /\n\n" * 1024)
        writer.piece(0, 0, b"G /\n")
        self.assertIsNone(writer.changed)
        writer.piece(0, 0, b"\n")
        writer.piece(1, 0, GET)
        text = self.text(writer)
        self.assertEqual(text[:20], b"haboob-traffic 1 784")
        self.assertEqual(read_capture(text)[1][-3:], [(0, 0, b"G /\n"), (0, 0, b"\n"), (1, 0, GET)])
        self.assertEqual((writer.messages, writer.faults(), writer.changed), (1048578, [], "1048576 messages"))

    def test_most_messages_of_a_traffic_text(self):
        for word in ("traffic", None):
            writer = self.writer(word)
            writer.connect(0)
            writer.messages = 2**29 - 1  # as if so many had come
            writer.message(0, 0, GET)
            writer.message(0, 0, GET)
            self.assertEqual(dict(writer.left_out), {"records beyond 536870912 messages": 1})
            self.assertTrue(writer.faults()[0].startswith("a traffic text ends at 536870912 messages: "))
            self.assertNotIn("--format", writer.faults()[0])

    def test_most_bytes(self):
        writer = self.writer()
        writer.connect(0)
        writer.size = 2**30 - 32 - 38 - 14  # as if so much stood there; the records below have 13 + 25 and 12 + 2 bytes
        writer.piece(0, 0, b"x" * 24)
        writer.piece(0, 0, b"x")
        writer.piece(0, 0, b"x")
        self.assertEqual(self.written(writer), [(0, 0, b"x" * 24), (0, 0, b"x")])
        self.assertEqual(dict(writer.left_out), {"records beyond 1073741824 bytes of text": 1})

    def test_more_bytes_than_a_capture_has(self):
        writer = self.writer(None)
        writer.connect(0)
        writer.size = 2**30 - 32 - 38
        writer.piece(0, 0, b"x" * 24)
        self.assertIsNone(writer.changed)
        writer.end(0, 0)
        self.assertEqual(writer.connect(0, 2), 0)
        writer.piece(0, 0, b"y")
        writer.size = 2**50 - 32 - 14
        writer.piece(1, 0, b"z")
        writer.piece(1, 0, b"z")
        self.assertEqual(self.text(writer), traffic((0, 0, b"x" * 24), (0, 0), ("tier", 0, 2), (0, 0, b"y"),
                                                    (1, 0, b"z")))
        self.assertEqual(dict(writer.left_out), {"records beyond 1125899906842624 bytes of text": 1})

    def test_a_tier_counts_among_the_bytes(self):
        writer = self.writer()
        writer.size = 2**30 - 32 - 8  # one byte too few for the tier's 9
        writer.piece(0, writer.connect(0, 1), b"x")
        self.assertEqual((self.written(writer), writer.left_out.total()), ([], 2))

    def test_nothing_comes_after_what_is_left_out(self):
        writer = self.writer()
        writer.connect(0)
        writer.size = 2**30 - 32 - 20
        writer.piece(0, 0, b"x" * 24)
        writer.piece(0, 0, b"x")
        self.assertEqual((self.written(writer), writer.left_out.total(), writer.bytes), ([], 2, 0))

    def test_numbers_of_a_capture_are_given_once(self):
        writer = self.writer()
        for number in range(65536):
            self.assertEqual(writer.connect(0), number)
            writer.end(0, number)
        self.assertIsNone(writer.connect(0))
        self.assertEqual(dict(writer.left_out), {"connections beyond 65536 connections": 1})
        self.assertEqual(self.text(writer)[:16], b"haboob-capture 2")

    def test_the_smallest_free_number_is_given(self):
        writer = self.writer("traffic")
        self.assertEqual([writer.connect(0) for _ in range(4)], [0, 1, 2, 3])
        for number in (2, 0, 3):
            writer.end(0, number)
        self.assertEqual([writer.connect(0, 1) for _ in range(5)], [0, 2, 3, 4, 5])
        self.assertEqual(writer.connections, 9)

    def test_a_capture_becomes_a_traffic_text_where_its_numbers_end(self):
        writer = self.writer(None)
        for number in range(65536):
            self.assertEqual(writer.connect(0), number)
            if number in (7, 500, 3):
                writer.end(0, number)
        self.assertEqual([writer.connect(0) for _ in range(4)], [3, 7, 500, None])
        writer.end(0, 65535)
        self.assertEqual(writer.connect(0), 65535)
        self.assertEqual(dict(writer.left_out), {"connections beyond 65536 connections at once": 1})
        self.assertIn("a traffic text ends at 65536 connections at once", writer.faults()[0])
        self.assertEqual((self.text(writer)[:16], writer.changed), (b"haboob-traffic 1", "65536 connections"))

    def test_a_file_whose_begin_cannot_be_written_again(self):
        reader, end = os.pipe()
        with open(reader, "rb"), open(end, "wb") as file:
            writer = capture_writer.CaptureWriter(file, START * 10**6)
            writer.connect(0)
            writer.messages = 1048576
            writer.message(0, 0, GET)
            self.assertIn("; take a part of the time by --from and --to, or a traffic text by --format traffic",
                          writer.faults()[0])

    def test_a_record_of_a_number_that_no_connection_has(self):
        for word in ("2", "traffic", None):
            writer = self.writer(word)
            writer.end(0, writer.connect(0))
            for record in (lambda: writer.piece(0, 0, GET), lambda: writer.message(0, 0, GET),
                           lambda: writer.end(0, 0), lambda: writer.piece(0, 1, GET)):
                self.assertRaises(ValueError, record)

    def test_messages_are_counted_by_the_rules(self):
        post = b"\r\n\nPOST / HTTP/1.1\r\nHost: a\r\ncontent-LENGTH:  0000004\r\n\r\n"
        for text, messages in [(GET * 3, 3), (GET[:-1], 0), (post + b"G\n\n\n" + GET, 2), (post + b"G\n\n", 1),
                               (b"x" * 8191, 0), (b"x" * 8192, 1), (b"x" * 8190 + b"\n\n" + GET, 2),
                               (b"x" * 8191 + b"\n\n" + GET, 2), (b"\n" * 9000 + GET, 1), (b"G\n\r\nG\n\n", 2)]:
            for length in (1, 7, len(text)):
                counter = capture_writer.MessageCounter()
                fed = [counter.feed(text[at:at + length]) for at in range(0, len(text), length)]
                self.assertEqual(sum(fed), messages, text)


if __name__ == "__main__":
    unittest.main()
