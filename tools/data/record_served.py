#!/usr/bin/python3
"""Records served/ beside itself: the same requests to nginx, Apache, HAProxy and Caddy, as logs of several formats, and
those to nginx as packets.

    record_served.py [SERVER ..]

It needs nginx, apache2, haproxy, caddy, tcpdump and the right to record (root), and the ports 18101 to 18105 of
127.0.0.1; or what the named servers need, whose files alone are then written. A client sends 60 requests within some
four seconds at times that are drawn with a seed; behind all servers stands a server of this script that answers each
after the milliseconds that its query asks for, so that answers overtake one another. What the client sent, and when, is
written to sent.txt: a line `<server> <microseconds since 1970> <request line>` each.
"""
import concurrent.futures
import http.server
import os
import pathlib
import random
import socket
import subprocess
import sys
import tempfile
import threading
import time
import urllib.parse

FOLDER = pathlib.Path(__file__).resolve().parent / "served"
BACKEND = 18102
PORTS = {"nginx": 18101, "apache": 18103, "haproxy": 18104, "caddy": 18105}
COUNT, SPAN = 60, 4.0  # requests, seconds
MODULES = ("mpm_event", "authz_core", "proxy", "proxy_http")
HEAD = ("GET /%s HTTP/1.1\r\nHost: www.example.org\r\nUser-Agent: client/1 \"quoted\"\r\n"
        "Referer: http://www.example.org/\r\n"
        "If-Modified-Since: Sun, 06 Nov 1994 08:49:37 GMT\r\nIf-None-Match: \"tag\"\r\nConnection: close\r\n\r\n")
NGINX_SETTINGS = """
daemon off; worker_processes 1; pid %(at)s/nginx.pid; error_log %(at)s/nginx.error; user root;
events { }
http {
  client_body_temp_path %(at)s; proxy_temp_path %(at)s; fastcgi_temp_path %(at)s; uwsgi_temp_path %(at)s;
  scgi_temp_path %(at)s;
  log_format timed '$remote_addr - $remote_user [$time_local] "$request" $status $body_bytes_sent "$http_referer" '
    '"$http_user_agent" $msec $request_time $host "$http_if_modified_since" "$http_if_none_match"';
  log_format main '$remote_addr - $remote_user [$time_local] "$request" $status $body_bytes_sent "$http_referer" '
    '"$http_user_agent" "$http_x_forwarded_for"';
  log_format object escape=json '{"remote_addr":"$remote_addr","msec":$msec,"request_time":$request_time,'
    '"request":"$request","status":$status,"http_host":"$http_host","http_user_agent":"$http_user_agent"}';
  access_log %(out)s/nginx_timed.log timed;
  access_log %(out)s/nginx_main.log main;
  access_log %(out)s/nginx_json.log object;
  access_log %(out)s/nginx_combined.log combined;
  server { listen 127.0.0.1:18101; location / { proxy_pass http://127.0.0.1:18102; } }
}
"""
APACHE_SETTINGS = """
ServerRoot %(at)s
ServerName www.example.org
Listen 127.0.0.1:18103
PidFile %(at)s/apache.pid
ErrorLog %(at)s/apache.error
Mutex file:%(at)s
%(modules)s
ProxyPass / http://127.0.0.1:18102/
LogFormat "%%h %%l %%u %%t \\"%%r\\" %%>s %%O" common
LogFormat "%%h %%l %%u %%t \\"%%r\\" %%>s %%O \\"%%{Referer}i\\" \\"%%{User-Agent}i\\"" combined
LogFormat "%%v:%%p %%h %%l %%u %%t \\"%%r\\" %%>s %%O \\"%%{Referer}i\\" \\"%%{User-Agent}i\\"" vhost_combined
LogFormat "%%h %%l %%u %%t \\"%%r\\" %%>s %%O \\"%%{Referer}i\\" \\"%%{User-Agent}i\\" %%D" combined_us
LogFormat "%%h %%{usec}t %%{end:usec}t %%{end:msec}t %%D %%T %%{ms}T \\"%%r\\" %%>s" times
CustomLog %(out)s/apache_common.log common
CustomLog %(out)s/apache_combined.log combined
CustomLog %(out)s/apache_vhost_combined.log vhost_combined
CustomLog %(out)s/apache_times.log times
"""
HAPROXY_SETTINGS = """
global
    log stdout format raw local0
defaults
    mode http
    log global
    option httpslog
    timeout client 10s
    timeout connect 10s
    timeout server 10s
    timeout queue 10s
frontend in
    bind 127.0.0.1:18104
    default_backend out
backend out
    server behind 127.0.0.1:18102 maxconn 6
"""
CADDY_SETTINGS = """
{
    admin off
    auto_https off
}
http://:18105 {
    bind 127.0.0.1
    log {
        output file %(out)s/caddy.log
    }
    reverse_proxy 127.0.0.1:18102
}
"""


class Answer(http.server.BaseHTTPRequestHandler):
    """Answers after the milliseconds that the query asks for."""

    def do_GET(self):
        query = urllib.parse.parse_qs(urllib.parse.urlsplit(self.path).query)
        time.sleep(int(query["wait"][0]) / 1000)
        self.send_response(200)
        self.send_header("Content-Length", "3")
        self.end_headers()
        self.wfile.write(b"ok\n")

    def log_message(self, *_):
        pass


def ask(port, begin, offset, target):
    """Sends one request at its time; returns when that was, in microseconds since 1970."""
    with socket.create_connection(("127.0.0.1", port), timeout=10) as client:
        time.sleep(max(0, begin + offset - time.time()))
        sent = time.time_ns() // 1000
        client.sendall((HEAD % target).encode())
        while client.recv(4096):
            pass
    return sent


def ask_all(name, port, lines):
    """Sends all requests to one server."""
    drawn = random.Random(42)
    offsets = sorted(drawn.uniform(0, SPAN) for _ in range(COUNT))
    targets = ["%s/%d?wait=%d" % (name, number, drawn.choice((0, 5, 20, 100, 400, 1500))) for number in range(COUNT)]
    begin = time.time() + 0.2
    with concurrent.futures.ThreadPoolExecutor(COUNT) as clients:
        sent = list(clients.map(lambda one: ask(port, begin, *one), zip(offsets, targets)))
    lines += ["%s %d GET /%s HTTP/1.1" % (name, *it) for it in zip(sent, targets)]


def settings(at):
    """Writes the settings of all servers; returns the words that start each, and the file for what it prints."""
    modules = "\n".join("LoadModule %s_module /usr/lib/apache2/modules/mod_%s.so" % (name, name) for name in MODULES)
    for name, text in (("nginx", NGINX_SETTINGS), ("apache", APACHE_SETTINGS), ("haproxy", HAPROXY_SETTINGS),
                       ("caddy", CADDY_SETTINGS)):
        (at / (name + ".conf")).write_text(text % {"at": at, "out": FOLDER, "modules": modules})
    return {"nginx": (["nginx", "-c", str(at / "nginx.conf")], os.devnull),
            "apache": (["apache2", "-X", "-d", str(at), "-f", str(at / "apache.conf")], os.devnull),
            "haproxy": (["haproxy", "-db", "-f", str(at / "haproxy.conf")], FOLDER / "haproxy.log"),
            "caddy": (["caddy", "run", "--adapter", "caddyfile", "--config", str(at / "caddy.conf")], os.devnull)}


def recorders():
    """The words that start tcpdump: whole packets to nginx, and all packets cut at 96 bytes."""
    return [(["tcpdump", "-i", "lo", "-s", size, "-U", "-w", str(FOLDER / name), rule], os.devnull)
            for size, name, rule in (("0", "nginx.pcap", "tcp dst port %d" % PORTS["nginx"]),
                                     ("96", "nginx_cut.pcap", "tcp port %d" % PORTS["nginx"]))]


def emptied(servers):
    """Takes the files of these servers away; returns the lines of sent.txt that are of others."""
    FOLDER.mkdir(exist_ok=True)
    for old in FOLDER.iterdir():
        if old.name.startswith(tuple(servers)):
            old.unlink()
    sent = FOLDER / "sent.txt"
    lines = sent.read_text().splitlines() if sent.exists() else []
    return [line for line in lines if line.split(" ")[0] not in servers]


def main():
    servers = sys.argv[1:] or list(PORTS)
    lines, started = emptied(servers), []
    backend = http.server.ThreadingHTTPServer(("127.0.0.1", BACKEND), Answer)
    threading.Thread(target=backend.serve_forever, daemon=True).start()
    with tempfile.TemporaryDirectory() as at:
        try:
            known = settings(pathlib.Path(at))
            for words, output in [known[name] for name in servers] + recorders() * ("nginx" in servers):
                with open(output, "wb") as file:
                    started.append(subprocess.Popen(words, stdout=file, stderr=subprocess.DEVNULL))
            time.sleep(2)
            for name in servers:
                ask_all(name, PORTS[name], lines)
            time.sleep(1)
        finally:
            for process in reversed(started):
                process.terminate()
                process.wait()
    (FOLDER / "sent.txt").write_text("".join(line + "\n" for line in lines))
    os.sync()


if __name__ == "__main__":
    main()
