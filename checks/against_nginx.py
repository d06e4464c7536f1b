#!/usr/bin/python3
"""Asks nginx and Haboob the same and compares their answers; reads Haboob's replies with h11, a client that isn't ours.

    checks/against_nginx.py PROGRAM [--requests N] [--seed S]

nginx serves a folder of odd names on a free port of this machine. It is sent about N requests (3,000 without it) in
random pieces: each oddity of odd_requests.py once, and then good and odd ones as the seed gives them. tcpdump records
them. tools/capture_from_pcap.py makes a capture of the recording, and `haboob snapshot` a snapshot of the folder, which
Haboob replays. Then the answers of each connection are compared in their order: status, whether the connection is
closed, and of a file its body, length, media type and time, of a redirect its location. Bodies of error pages aren't
compared. Both streams of a connection are read by h11, as a client that knows the methods of its requests: Haboob's has
to give as many responses as its file tells of, whole, and nothing may be left over.

Where the two differ, one of departures.py has to say why; each is printed with how often it was met. What none explains
is printed with both heads, and makes the status 1. After an answer that closes the connection on one side nothing is
compared there. It needs nginx, tcpdump with the right to record, and three libraries; where one isn't there, it says so
and ends with status 0. It takes about a minute.
"""
import collections
import contextlib
import importlib.util
import os
import random
import shutil
import signal
import socket
import subprocess
import sys
import tempfile
import time

from lib.run import contents, options, put
from lib.servers import HOST as ADDRESS, answers_at, free_port, is_soon, running
from lib.sources import TOP
from lib.texts import OPEN as OPEN_POLICY
from lib.usage import parser_of
import compare_replays
import departures
import odd_requests
import read_replies
import reference

try:
    import h11
except ImportError:
    h11 = None

PYTHON = "/usr/bin/python3"  # Debian's, for which the libraries are
PROGRAMS = {"nginx": "nginx-light", "tcpdump": "tcpdump"}  # each with its package
LIBRARIES = {"h11": "python3-h11", "dpkt": "python3-dpkt", "tqdm": "python3-tqdm"}
SEARCHED = os.environ.get("PATH", "") + os.pathsep + "/usr/sbin:/sbin"
TOOL = os.path.join(TOP, "tools", "capture_from_pcap.py")

REQUESTS = 3000
OPEN = 12  # connections at a time
ROOM = "65536"  # KiB for packets that tcpdump hasn't taken yet: enough for most of them
QUIET = 1.5  # seconds without a byte after which nginx has said all, and tcpdump has written what it holds
PAUSE = 0.0002  # seconds before the next turn where there is nothing to send
PATIENCE = 20  # seconds without any byte, after which a connection counts as hung
SHOWN = 1500  # bytes of a request that are printed

CONFIGURATION = """\
daemon off;
master_process off;
pid nginx.pid;
error_log error.log;
events { worker_connections 512; }
http {
    access_log off;
    client_body_temp_path body; proxy_temp_path proxy;
    fastcgi_temp_path fastcgi; uwsgi_temp_path uwsgi; scgi_temp_path scgi;
    default_type application/octet-stream;
    types {
        text/html html htm; text/css css; text/javascript js; application/json json; text/plain txt;
        image/svg+xml svg; image/png png; image/jpeg jpg jpeg; image/gif gif;
    }
    etag off;
    max_ranges 0;
    if_modified_since before;
    absolute_redirect off;
    client_max_body_size 65536;
    keepalive_requests 1000000;
    keepalive_disable none;
    lingering_close always;
    server { listen %s:%d; root folder; index index.html; }
}
"""

# All requests are admitted.
SETTINGS = OPEN_POLICY + b"rate_min = 1000000000\n"


class Fault(Exception):
    """What ends the check before it has compared anything: one line."""


class Skipped(Exception):
    """What the check needs and isn't there: one line."""


class Answer:
    """A response, as h11 reads it."""

    def __init__(self, response, body):
        self.status, self.body = response.status_code, body
        self.fields = {bytes(name): bytes(value) for name, value in response.headers}
        self.closes = b"close" in self.fields.get(b"connection", b"").lower()
        self.unasked = False  # whether the body came to HEAD
        fields = (b"%s: %s" % pair for pair in response.headers.raw_items())
        self.lines = [b"%d %s" % (self.status, bytes(response.reason)), *fields]

    def text(self):
        """The head, to be printed."""
        return "\n    ".join(line.decode("ascii", "backslashreplace") for line in self.lines)


class Client:
    """A connection to nginx: sends its pieces one after another, and keeps what comes back.

    Where nginx then waits for more, it is told that no more comes; not earlier, as then it might not send the rest.
    """

    def __init__(self, chance, port, requests):
        self.text, self.answer = b"".join(request.data for request in requests), b""
        self.pieces = collections.deque(compare_replays.random_cut(chance, self.text))
        self.ended = False  # whether nginx has been told that no more comes
        self.reset = False  # whether nginx has refused what was sent
        self.moved = time.monotonic()
        self.socket = socket.create_connection((ADDRESS, port))
        self.socket.setsockopt(socket.IPPROTO_TCP, socket.TCP_NODELAY, 1)
        self.socket.sendall(self.pieces.popleft())
        self.socket.setblocking(False)

    def send(self):
        """Sends the next piece, or as much of it as there is room for."""
        if self.pieces:
            sent = self.socket.send(self.pieces[0])
            piece = self.pieces.popleft()
            if sent < len(piece):
                self.pieces.appendleft(piece[sent:])
            self.moved = time.monotonic()
        elif not self.ended and time.monotonic() - self.moved > QUIET:
            self.socket.shutdown(socket.SHUT_WR)
            self.ended = True
        else:
            time.sleep(PAUSE)

    def read(self):
        """Takes what has come; whether it was the last."""
        while data := self.socket.recv(2**20):
            self.answer += data
            self.moved = time.monotonic()
        return True

    def turn(self):
        """Sends and reads; whether nginx has ended the connection, and all is sent."""
        over = False
        try:
            with contextlib.suppress(BlockingIOError):
                self.send()
            with contextlib.suppress(BlockingIOError):
                over = self.read()
        except ConnectionError:
            self.reset = True
        if time.monotonic() - self.moved > PATIENCE:
            raise Fault("nginx hangs after %r" % self.text[-SHOWN:])
        return self.reset or (over and not self.pieces)


def path_of(program):
    """Where a program stands; None where it isn't there."""
    return shutil.which(program, path=SEARCHED)


def start_nginx(stack, folder, port):
    """Starts nginx on the folder within a folder."""
    configuration = os.path.join(folder, "nginx.conf")
    with open(configuration, "w", encoding="ascii") as file:
        file.write(CONFIGURATION % (ADDRESS, port))
    words = [path_of("nginx"), "-p", folder, "-c", configuration, "-e", "error.log"]
    process = stack.enter_context(running(words, stdout=subprocess.DEVNULL, stderr=subprocess.DEVNULL))
    if not is_soon(lambda: answers_at(port), PATIENCE, process):
        raise Fault("nginx doesn't start")


def record(stack, folder, port):
    """Starts recording into a file of a folder."""
    path = os.path.join(folder, "packets.pcap")
    words = [path_of("tcpdump"), "-i", "lo", "-U", "-B", ROOM, "-w", "-", "tcp port %d" % port]
    log_path = os.path.join(folder, "tcpdump.log")
    with open(path, "wb") as packets, open(log_path, "wb") as log:
        process = stack.enter_context(running(words, stdout=packets, stderr=log))
    if not is_soon(lambda: b"listening on" in contents(log_path), PATIENCE, process):
        raise Skipped("tcpdump, with the right to record")
    return process, path


def ask(chance, port, plan):
    """What nginx answers on each connection; some are open at a time, and the next to move is drawn."""
    waiting, active, clients = collections.deque(plan), [], []
    while waiting or active:
        while waiting and len(active) < OPEN:
            clients.append(Client(chance, port, waiting.popleft()))
            active.append(clients[-1])
        client = chance.choice(active)
        if client.turn():
            active.remove(client)
            client.socket.close()
    return clients


def stop_recording(process, path):
    """Ends the recording once nothing more comes."""
    size = -1
    while size != os.path.getsize(path):
        size = os.path.getsize(path)
        time.sleep(QUIET)
    process.send_signal(signal.SIGINT)
    process.wait(PATIENCE)


def run(words):
    """Runs a program that has to end well."""
    ended = subprocess.run(words, stdin=subprocess.DEVNULL, stdout=subprocess.DEVNULL, stderr=subprocess.PIPE)
    if ended.returncode:
        raise Fault("%s: status %d: %s" % (words[0], ended.returncode, ended.stderr.decode(errors="replace").strip()))


def replay(program, folder, packets, port, clients):
    """Haboob's replies on each connection, in their order."""
    names = {name: os.path.join(folder, name) for name in ("snapshot", "capture", "replies", "settings")}
    put(folder, {"settings": SETTINGS})
    run([sys.executable, TOOL, "--port", str(port), "--output", names["capture"], packets])
    run([program, "snapshot", "--folder", os.path.join(folder, "folder"), "--output", names["snapshot"]])
    run([program, "replay", *options(**names)])
    check_capture(contents(names["capture"]), clients)
    replies = [[] for _ in clients]
    for _, conn, reply in read_replies.records_of(contents(names["replies"])):
        replies[conn].append(reply)
    return replies


def check_capture(capture, clients):
    """Whether the capture holds what was sent, connection by connection; where nginx reset one, a prefix of that."""
    texts = [b""] * len(clients)
    for piece in reference.read_recording(capture).records:
        texts[piece.conn] += piece.body
    for text, client in zip(texts, clients):
        if text != client.text and not (client.reset and client.text.startswith(text)):
            raise Fault("the capture doesn't hold what was sent: tcpdump may have lost packets")


def next_answer(client):
    """The next response that h11 reads."""
    response, body = None, []
    while True:
        event = client.next_event()
        if isinstance(event, h11.Response):
            response = event
        elif isinstance(event, h11.Data):
            body.append(bytes(event.data))
        elif isinstance(event, h11.EndOfMessage):
            return Answer(response, b"".join(body))
        elif not isinstance(event, h11.InformationalResponse):
            raise h11.RemoteProtocolError("%r in a response" % event)


def read_answers(stream, requests):
    """The responses that h11 reads as a client that has sent these requests, and the bytes that are left over."""
    client, answers = h11.Connection(h11.CLIENT), []
    client.receive_data(stream)
    client.receive_data(b"")
    for request in requests:
        if not client.trailing_data[0].startswith(b"HTTP/"):
            break
        method = request.method if departures.TOKEN.fullmatch(request.method) else b"GET"
        client.send(h11.Request(method=method, target="/", headers=[("Host", "a")]))
        client.send(h11.EndOfMessage())
        answers.append(next_answer(client))
        if client.their_state is not h11.DONE:
            break
        client.start_next_cycle()
    return answers, client.trailing_data[0]


def has_error_body(answers, left):
    """Whether what is left over is the body of a last answer that tells of an error: it came to HEAD."""
    if not answers or not answers[-1].closes or answers[-1].status < 400:
        return False
    return answers[-1].fields.get(b"content-length") == b"%d" % len(left)


def read_theirs(stream, requests):
    """nginx's answers. Left out is what it says in HTTP/0.9, without a head; bodies of errors aren't compared."""
    answers, left = read_answers(stream, requests)
    old = len(answers) < len(requests) and departures.has_no_version(requests[len(answers)])
    if left and not has_error_body(answers, left) and not old:
        raise h11.RemoteProtocolError("%r after the last response" % left[:100])
    return answers


def read_ours(replies, requests):
    """Haboob's answers: one for each reply, with its bytes. The last may have a body that HEAD didn't ask for."""
    answers, left = read_answers(b"".join(replies), requests)
    if left and has_error_body(answers, left):
        answers[-1].body, answers[-1].unasked, left = left, True, b""
    if left or len(answers) != len(replies):
        counts = len(replies), len(answers), left[:100]
        raise h11.RemoteProtocolError("%d replies read as %d responses, and %r" % counts)
    for reply, answer in zip(replies, answers):
        if reply.partition(b"\r\n\r\n")[2] != answer.body:
            raise h11.RemoteProtocolError("another body than that of %r" % reply[:100])
    return answers


def field(name):
    """What gives the value of a field of an answer."""
    return lambda answer: answer.fields.get(name)


ALWAYS = {"status": lambda answer: answer.status, "closes": lambda answer: answer.closes}
OF_A_FILE = {
    "body": lambda answer: answer.body, "length": field(b"content-length"), "type": field(b"content-type"),
    "modified": field(b"last-modified"),
}
COMPARED = {200: OF_A_FILE, 304: OF_A_FILE, 301: {"location": departures.location_of}}


def differences(theirs, ours):
    """In what two answers differ: `answer` where there is only one."""
    if theirs is None or ours is None:
        return {"answer"}
    parts = ALWAYS | (COMPARED.get(ours.status, {}) if theirs.status == ours.status else {})
    found = {part for part, seen in parts.items() if seen(theirs) != seen(ours)}
    return found | ({"unasked"} if ours.unasked else set())


class Comparison:
    """Compares answers, and counts what it finds."""

    def __init__(self):
        self.equal, self.uncompared, self.wrong = 0, 0, 0
        self.met = collections.Counter()

    def pair(self, request, theirs, ours):
        """Compares the answers to a request; prints them where no departure says why they differ."""
        differing = differences(theirs, ours)
        if not differing:
            self.equal += 1
            return
        unexplained = set(differing)
        for parts, holds in departures.DEPARTURES:
            if unexplained & parts and holds(request, theirs, ours):
                self.met[holds] += 1
                unexplained -= parts
        if unexplained:
            self.wrong += 1
            print("DIFFERENT: %s\n  request %r" % (", ".join(sorted(unexplained)), request.data[:SHOWN]))
            for name, answer in (("nginx", theirs), ("Haboob", ours)):
                print("  %s\n    %s" % (name, "no answer" if answer is None else answer.text()))

    def connection(self, requests, theirs, ours):
        """Compares the answers of a connection, up to one after which one side answers no more."""
        for place, request in enumerate(requests):
            one, other = (answers[place] if place < len(answers) else None for answers in (theirs, ours))
            if one is None and other is None:
                self.uncompared += len(requests) - place
                return
            self.pair(request, one, other)
            # nginx ends the connection after a 412, though it says keep-alive.
            if one is None or other is None or one.closes or other.closes or one.status == 412:
                self.uncompared += len(requests) - place - 1
                return

    def streams(self, requests, stream, replies):
        """Reads and compares both streams of a connection."""
        try:
            theirs, ours = read_theirs(stream, requests), read_ours(replies, requests)
        except h11.ProtocolError as fault:
            self.wrong += 1
            print("UNREADABLE: %s\n  requests %r" % (fault, b"".join(request.data for request in requests)[-SHOWN:]))
            return
        self.connection(requests, theirs, ours)

    def tell(self, is_default):
        """Prints the counts."""
        print("%d answers are alike; %d requests came after the end on one side" % (self.equal, self.uncompared))
        for _, holds in departures.DEPARTURES:
            if self.met[holds]:
                print("%5d  %-20s  %s" % (self.met[holds], holds.__name__, holds.__doc__))
        unmet = [holds.__name__ for _, holds in departures.DEPARTURES if not self.met[holds]]
        if is_default and unmet:
            print("No longer met, so perhaps no departures any more: " + ", ".join(unmet))
        print("%d differences that no departure explains" % self.wrong)


def need_all():
    """Refuses to go on where a program or a library isn't there."""
    lacking = {name: package for name, package in PROGRAMS.items() if path_of(name) is None}
    lacking |= {name: package for name, package in LIBRARIES.items() if importlib.util.find_spec(name) is None}
    if lacking:
        raise Skipped("%s: apt-get install %s" % (", ".join(lacking), " ".join(lacking.values())))


def check(program, count, chance, folder, stack):
    """Asks both; what was found."""
    files = odd_requests.write_folder(chance, os.path.join(folder, "folder"))
    plan = odd_requests.connections(chance, files, count)
    port = free_port()
    start_nginx(stack, folder, port)
    recording, packets = record(stack, folder, port)
    clients = ask(chance, port, plan)
    stop_recording(recording, packets)
    replies = replay(program, folder, packets, port, clients)
    comparison = Comparison()
    for requests, client, reply in zip(plan, clients, replies):
        comparison.streams(requests, client.answer, reply)
    print("%d requests on %d connections, %d bytes, %d replies" % (
        sum(map(len, plan)), len(plan), sum(len(client.text) for client in clients), sum(map(len, replies))))
    return comparison


def main():
    parser = parser_of(__doc__)
    parser.add_argument("--requests", type=int, default=REQUESTS, metavar="N", help="%d without it" % REQUESTS)
    parser.add_argument("--seed", type=int, metavar="S", help="gives the same requests again; drawn without it")
    words = parser.parse_args()
    seed = random.SystemRandom().randrange(10**9) if words.seed is None else words.seed
    if h11 is None and os.path.exists(PYTHON) and os.path.realpath(PYTHON) != os.path.realpath(sys.executable):
        os.execv(PYTHON, [PYTHON] + sys.argv)
    print("seed %d" % seed, flush=True)
    # So that all is cleaned up where the script is ended from outside.
    signal.signal(signal.SIGTERM, lambda *_: sys.exit(1))
    try:
        need_all()
        with tempfile.TemporaryDirectory() as folder, contextlib.ExitStack() as stack:
            comparison = check(words.program, words.requests, random.Random(seed), folder, stack)
    except Skipped as need:
        print("against_nginx: skipped, as it needs %s" % need)
        return 0
    except (Fault, OSError, read_replies.NoRepliesText) as fault:
        print("against_nginx: %s" % fault, file=sys.stderr)
        return 2
    comparison.tell(words.requests >= REQUESTS)
    return int(comparison.wrong > 0)


if __name__ == "__main__":
    sys.exit(main())
