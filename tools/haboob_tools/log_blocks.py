"""Puts the lines of logs into blocks, has these read side by side, and the requests put in order."""
import contextlib
import gc
import heapq
import itertools
import multiprocessing
import operator
import os
import pickle
import signal
import tempfile

from .log_requests import LINE_LIMIT, NEAR, RUN_LENGTH, SECOND, Block, packed, path_of, runs_of
from .tool_run import Fault

BLOCK_BYTES = 4_194_304
SIGNALS = (signal.SIGINT, signal.SIGTERM, signal.SIGHUP)
HELD_BYTES = 67_108_864  # of requests; more are kept in a file without a name until all are there
HELD_REQUESTS = 50_000  # that are put in order, or held of what is merged, at a time


def texts_of(one):
    """The bytes of an input in texts of whole lines, of some BLOCK_BYTES; of a line too long only the begin."""
    begun = []  # the parts of a line whose end hasn't come
    while data := one.read(BLOCK_BYTES):
        end = data.rfind(b"\n") + 1
        if end:
            yield b"".join(begun) + data[:end]
            begun = []
        if end < len(data) and sum(map(len, begun)) <= LINE_LIMIT:
            begun.append(data[end:] if begun or len(data) - end <= LINE_LIMIT else data[end:end + LINE_LIMIT + 1])
    if begun:
        yield b"".join(begun)


def blocks_of(inputs):
    """The blocks of some inputs, one input after another."""
    before, held = [], None
    for one in inputs:
        number = 1
        for text in texts_of(one):
            if held:
                yield held._replace(after=text.split(b"\n", NEAR)[:NEAR])
            held = Block(text, one.name, number, before, [])
            before = [*before, *text.rstrip(b"\n").rsplit(b"\n", NEAR)[-NEAR:]][-NEAR:]
            number += text.count(b"\n")
    if held:
        yield held


def _work(pipe, ends, read):
    """What a worker does: reads the blocks that come until no more can come, for which it closes the parent's ends of
    all pipes that it was born with. Ctrl-C is the parent's."""
    for end in ends:
        end.close()
    for number, action in ((signal.SIGINT, signal.SIG_IGN), (signal.SIGTERM, signal.SIG_DFL),
                           (signal.SIGHUP, signal.SIG_DFL)):
        signal.signal(number, action)
    signal.pthread_sigmask(signal.SIG_UNBLOCK, SIGNALS)
    gc.disable()  # nothing of what is read refers to itself
    with contextlib.suppress(EOFError, OSError, MemoryError):
        while True:
            pipe.send(read(pipe.recv()))


class Workers:
    """Processes that read blocks: the first takes the first block, and so on in turn, each one block at a time.

    Where the parent is gone, even without a word, they end by the end of their pipes.
    """

    def __init__(self, count, read):
        self.pipes, self.processes = [], []
        before = signal.pthread_sigmask(signal.SIG_BLOCK, SIGNALS)  # until a worker can tell what to do at a signal
        try:
            for _ in range(count):
                self._start(read)
        finally:
            signal.pthread_sigmask(signal.SIG_SETMASK, before)

    def _start(self, read):
        """Starts a worker."""
        ours, theirs = multiprocessing.Pipe()
        self.pipes.append(ours)
        words = (theirs, self.pipes, read)
        process = multiprocessing.get_context("fork").Process(target=_work, args=words, daemon=True)
        self.processes.append(process)
        process.start()
        theirs.close()

    def __enter__(self):
        return self

    def __exit__(self, *fault):
        for process in self.processes:
            process.terminate()
            process.join()

    def ask(self, number, block):
        """Gives a worker the block of a number, from 0; the block before that one has been answered."""
        self._pipe_call(number, lambda pipe: pipe.send(block))

    def answer(self, number):
        """What was read of the block of a number; waits for it."""
        return self._pipe_call(number, lambda pipe: pipe.recv())

    def _pipe_call(self, number, call):
        try:
            return call(self.pipes[number % len(self.pipes)])
        except (EOFError, OSError):
            raise Fault("a process that reads lines has ended, perhaps out of memory") from None


def read_all(blocks, read):
    """What `read` makes of each block, in order; where there are several, they are read side by side."""
    blocks = iter(blocks)
    first = list(itertools.islice(blocks, 2))
    if len(first) < 2:
        yield from map(read, first)
        return
    at_once, asked = len(os.sched_getaffinity(0)), 0
    with Workers(at_once, read) as workers:
        for block in itertools.chain(first, blocks):
            if asked >= at_once:
                yield workers.answer(asked - at_once)
            workers.ask(asked, block)
            asked += 1
        for number in range(max(0, asked - at_once), asked):
            yield workers.answer(number)


class RequestStore:
    """Keeps requests in sequences by rising time, and gives all by rising time.

    Of each sequence that is merged one run is held. Where these would be more than HELD_REQUESTS requests, sequences
    are first merged into fewer, which takes as much room of the file again.
    """

    def __init__(self):
        self.file = tempfile.SpooledTemporaryFile(max_size=HELD_BYTES)
        self.sequences = []  # where the runs of each begin and end in the file
        self.count = 0

    def __enter__(self):
        return self

    def __exit__(self, *fault):
        self.file.close()

    def add(self, runs, count):
        """Takes the runs of a sequence, which hold so many requests."""
        self.count += count
        self.sequences.append(self._written([runs]))

    def _written(self, runs):
        """Where runs begin and end in the file, once they were written."""
        try:
            self.file.seek(0, os.SEEK_END)
            begin = end = self.file.tell()
            for run in runs:
                self.file.seek(end)
                end += self.file.write(run)
        except OSError as error:
            raise Fault("a file for what is read, in %s: %s" % (tempfile.gettempdir(), error.strerror)) from None
        return begin, end

    def _requests(self, begin, end):
        """The requests of a sequence."""
        while begin < end:
            self.file.seek(begin)
            run = pickle.load(self.file)
            begin = self.file.tell()
            yield from run

    def _merged(self, sequences):
        """The requests of some sequences by rising time; those of the same time in the order of the sequences."""
        return heapq.merge(*itertools.starmap(self._requests, sequences), key=operator.itemgetter(0))

    def requests(self):
        """All requests by rising time; those of the same time in the order of the log."""
        at_once = max(2, HELD_REQUESTS // RUN_LENGTH)
        while len(self.sequences) > at_once:
            groups = (self.sequences[at:at + at_once] for at in range(0, len(self.sequences), at_once))
            self.sequences = [self._written(packed(self._merged(group))) for group in groups]
        return self._merged(self.sequences)


def begun(requests, quickest):
    """Requests of which those of the same arrival, up to HELD_REQUESTS, are in the order in which they were begun: by
    how much longer each took than the quickest on its path. A log has them as they were answered, those with the least
    work first."""
    for _, group in itertools.groupby(requests, key=operator.itemgetter(0)):
        while part := list(itertools.islice(group, HELD_REQUESTS)):
            if len(part) > 1:
                part.sort(key=lambda one: one[1] - quickest.get(path_of(one[3]), one[1]))
            yield from part


def spread(requests):
    """Requests whose times are whole seconds, with those of a second spread evenly over it, in their order."""
    for second, group in itertools.groupby(requests, key=operator.itemgetter(0)):
        group = list(group)
        for place, (_, *rest) in enumerate(group):
            yield (second + place * SECOND // len(group), *rest)


def by_arrival(requests):
    """Requests by when they came: their times less their durations. Those of the same arrival stay in their order."""
    came = ((max(0, time - duration), 0, *rest) for time, duration, *rest in requests)
    with RequestStore() as store:
        while part := list(itertools.islice(came, HELD_REQUESTS)):
            store.add(runs_of(part), len(part))
        yield from store.requests()
