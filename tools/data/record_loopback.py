#!/usr/bin/env python3
"""Records loopback.pcap beside itself: real packets between clients of this script and a server on port 18098.

It needs tcpdump, the right to record (root), and an HTTP server on 127.0.0.1 and ::1, port 18098 (it was nginx 1.22).
What each client gives its socket is written to loopback.expected: for each connection, in the order of their first
bytes, a line `connection <bytes>`, the bytes, and LF. It comes from the senders alone, not from the packets.
"""
import os
import socket
import subprocess
import time

PORT = 18098
FOLDER = os.path.dirname(os.path.abspath(__file__))
GET = b"GET /%b HTTP/1.1\r\nHost: localhost\r\n\r\n"
POST = b"POST /form HTTP/1.1\r\nHost: localhost\r\nContent-Length: %d\r\n\r\n"


def connect(host):
    """A connection to the server that sends what it is given at once."""
    client = socket.create_connection((host, PORT), timeout=5)
    client.setsockopt(socket.IPPROTO_TCP, socket.TCP_NODELAY, 1)
    return client


def send_all(clients, rounds):
    """Sends each round's parts, one by each client, and waits a little, so that each part is a packet."""
    for parts in rounds:
        for client, part in zip(clients, parts):
            if part:
                client.sendall(part)
                time.sleep(0.005)
    time.sleep(0.2)
    for client in clients:
        client.close()
        time.sleep(0.02)


def exchange():
    """Sends all that is recorded, and returns the bytes of each connection."""
    texts = []
    for count in (1, 3, 8):  # as many connections side by side, with both address families in turn
        rounds = [[GET % (b"a.txt?%d.%d" % (number, turn)) for number in range(count)] for turn in range(6)]
        send_all([connect(("127.0.0.1", "::1")[number % 2]) for number in range(count)], rounds)
        texts += [b"".join(parts) for parts in zip(*rounds)]
    body = bytes(range(256)) * 200  # of several packets
    upload = [[POST % len(body)], [body]]
    send_all([connect("127.0.0.1")], upload)
    letters = [[bytes([letter])] for letter in GET % b"letter"]
    send_all([connect("::1")], letters)
    pipelined = [[GET % b"one" + GET % b"two" + GET % b"three"]]
    send_all([connect("127.0.0.1")], pipelined)
    return texts + [b"".join(part for parts in rounds for part in parts) for rounds in (upload, letters, pipelined)]


def main():
    recorded = os.path.join(FOLDER, "loopback.pcap")
    words = ["tcpdump", "-i", "lo", "-s", "0", "-U", "-w", recorded, "tcp port %d" % PORT]
    recorder = subprocess.Popen(words, stderr=subprocess.DEVNULL)
    time.sleep(1)
    texts = exchange()
    time.sleep(1)
    recorder.terminate()
    recorder.wait()
    with open(os.path.join(FOLDER, "loopback.expected"), "wb") as file:
        for text in texts:
            file.write(b"connection %d\n%b\n" % (len(text), text))


if __name__ == "__main__":
    main()
