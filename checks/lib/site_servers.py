"""Servers of Debian's packages before a backend whose costs are known, for checks that record them."""
import collections
import contextlib
import os
import re
import signal
import socket
import sys
import time

from lib.servers import HOST, answers_at, free_port, is_soon, running

FILE, KIB, ERROR = 0.010, 0.00012, 0.006  # seconds that the backend works on a file, a KiB of it, an error
SIZES = {"small.txt": 2_000, "page.html": 20_000, "picture.png": 100_000}
API = {"api/item": 0.025, "api/search": 0.060}  # seconds that it works on an answer
LONGEST = 10  # seconds that a request, a start or an end may take
PRIORITY = 10  # in real time, of servers and clients, which mostly wait: other work on the machine doesn't slow them
LOG = "access.log"

NGINX_LOG = (
    '$remote_addr - $remote_user [$time_local] "$request" $status $body_bytes_sent "$http_referer" "$http_user_agent" '
    '$msec $request_time $host "$http_if_modified_since" "$http_if_none_match"')
NGINX_CONFIGURATION = """\
daemon off; worker_processes 1; pid {folder}/nginx.pid; error_log {folder}/error.log; user root;
events {{ worker_connections 4096; }}
http {{
  log_format timed '{log_format}';
  access_log {folder}/{log} timed;
  client_body_temp_path {folder}; proxy_temp_path {folder}; fastcgi_temp_path {folder}; uwsgi_temp_path {folder};
  scgi_temp_path {folder};
  {zones}
  server {{
    listen {host}:{port} backlog=4096;
    root {folder}/site;
    {limits}
    location {passed} {{ proxy_pass http://{host}:{backends[0]}; proxy_read_timeout 60s; }}
  }}
}}
"""
APACHE_CONFIGURATION = """\
ServerRoot {folder}
ServerName site
DefaultRuntimeDir {folder}
PidFile {folder}/apache.pid
ErrorLog {folder}/error.log
LoadModule mpm_prefork_module /usr/lib/apache2/modules/mod_mpm_prefork.so
LoadModule authz_core_module /usr/lib/apache2/modules/mod_authz_core.so
LoadModule proxy_module /usr/lib/apache2/modules/mod_proxy.so
LoadModule proxy_http_module /usr/lib/apache2/modules/mod_proxy_http.so
User www-data
Group www-data
Listen {host}:{port}
ListenBacklog 4096
KeepAlive Off
StartServers {servers}
MinSpareServers {servers}
MaxSpareServers {servers}
ServerLimit {servers}
MaxRequestWorkers {servers}
ProxyPass / http://{host}:{backends[0]}/ disablereuse=On
LogFormat "{escaped_format}" timed
CustomLog {folder}/{log} timed
"""
HAPROXY_CONFIGURATION = """\
global
    log stdout len 8192 format raw local0
    maxconn 4096
defaults
    mode http
    option httplog
    option dontlognull
    log global
    timeout connect 10s
    timeout client 60s
    timeout server 60s
    timeout queue 60s
frontend site
    bind {host}:{port} backlog 4096
    default_backend workers
backend workers
    balance roundrobin
{server_lines}
"""
LIGHTTPD_CONFIGURATION = """\
server.modules = ("mod_proxy", "mod_accesslog")
server.bind = "{host}"
server.port = {port}
server.document-root = "{folder}/site"
server.errorlog = "{folder}/error.log"
server.upload-dirs = ("{folder}")
server.listen-backlog = 4096
server.max-connections = 4096
server.max-fds = 8192
proxy.server = ("" => (("host" => "{host}", "port" => {backends[0]})))
accesslog.filename = "{folder}/{log}"
accesslog.format = "{escaped_format}"
"""

# A kind of server: the words that start it, before the path of its configuration; this, and the format of its log; the
# signal that ends it; how many processes each of its backends has, by the number of servers in a round; whether it
# serves files itself; and the times in its log that replays are compared with, where these aren't those of packets.
Kind = collections.namedtuple(
    "Kind", "words configuration log_format end_signal backends has_files times", defaults=(False, None))
# Times in a log: the pattern of a request's number and of its time, the time's unit in microseconds, and the recordings
# whose replays are compared with these times.
Times = collections.namedtuple("Times", "pattern unit sources")
NGINX = Kind(("nginx", "-c"), NGINX_CONFIGURATION, NGINX_LOG, signal.SIGQUIT, lambda servers: [servers])
NGINX_WITH_FILES = NGINX._replace(
    log_format=NGINX_LOG + " $upstream_response_time $upstream_connect_time", has_files=True,
    times=Times(re.compile(r"[?]n=([0-9]+) .* ([0-9]+[.][0-9]{3}) site "), 1_000_000, ("pcap", "log")))
APACHE = Kind(("apache2", "-DFOREGROUND", "-f"), APACHE_CONFIGURATION, '%h %l %u %{usec}t "%r" %>s %B %D',
              signal.SIGTERM, lambda servers: [4 * servers],  # more than there are workers: none waits there
              times=Times(re.compile(r"[?]n=([0-9]+) .* ([0-9]+)"), 1, ("log",)))
HAPROXY = Kind(("haproxy", "-db", "-f"), HAPROXY_CONFIGURATION, "haproxy", signal.SIGTERM,
               lambda servers: servers * [1])
LIGHTTPD = Kind(("lighttpd", "-D", "-f"), LIGHTTPD_CONFIGURATION, '%h %l %u %{begin:usec}t "%r" %s %b %D',
                signal.SIGINT, lambda servers: [servers])


def cost_of(name):
    """The status of a name, its bytes, and the seconds that the backend works on it."""
    if name in API:
        return 200, b"x" * 700, API[name]
    if name not in SIZES:
        return 404, b"none\n", ERROR
    return 200, b"x" * SIZES[name], FILE + KIB * SIZES[name] / 1024


def answer_one(client, ready):
    """Answers one request, whose work begins when the process is ready; returns when it ends."""
    with client:
        client.settimeout(LONGEST)
        begin = max(time.monotonic(), ready)
        text = b""
        while b"\r\n\r\n" not in text:
            data = client.recv(65_536)
            if not data:
                return ready
            text += data
        status, body, cost = cost_of(text.split(b" ", 2)[1].decode().partition("?")[0].strip("/"))
        end = begin + cost
        time.sleep(max(0, end - time.monotonic()))
        client.sendall(b"HTTP/1.0 %d X\r\nContent-Length: %d\r\n\r\n%s" % (status, len(body), body))
        return end


def serve(listener):
    """Answers connections one after another, for ever."""
    ready = 0.0
    while True:
        client, _ = listener.accept()
        with contextlib.suppress(OSError):
            ready = answer_one(client, ready)


def begin_process(listener):
    """A process of a backend."""
    child = os.fork()
    if not child:
        try:
            serve(listener)
        finally:
            os._exit(0)
    return child


@contextlib.contextmanager
def backends(counts):
    """Backends of so many processes each; gives their ports."""
    children, ports = [], []
    try:
        for count in counts:
            with socket.create_server((HOST, 0), backlog=4096) as listener:
                ports.append(listener.getsockname()[1])
                children += [begin_process(listener) for _ in range(count)]
        yield ports
    finally:
        for child in children:
            os.kill(child, signal.SIGKILL)
            os.waitpid(child, 0)


def wait_until(condition, what):
    """Waits until something holds."""
    if not is_soon(condition, LONGEST):
        sys.exit("%s: not within %d seconds" % (what, LONGEST))


@contextlib.contextmanager
def hurried():
    """Lets this process, and those that it begins meanwhile, run before others."""
    os.sched_setscheduler(0, os.SCHED_RR, os.sched_param(PRIORITY))
    try:
        yield
    finally:
        os.sched_setscheduler(0, os.SCHED_OTHER, os.sched_param(0))


def begin_site(folder):
    """Makes the site's files in a folder."""
    (folder / "site").mkdir()
    for name, size in SIZES.items():
        (folder / "site" / name).write_bytes(b"x" * size)


@contextlib.contextmanager
def site(folder, kind, servers, zones="", limits=""):
    """A server of a kind before its backends, with the lines of a limit for nginx; gives its port. The folder has the
    site's files, and gets the log. Apache ends its whole process group, so the server has one of its own."""
    with backends(kind.backends(servers)) as ports:
        port = free_port()
        lines = ["    server worker%d %s:%d maxconn 1" % (number, HOST, one) for number, one in enumerate(ports)]
        configuration = folder / "server.conf"
        configuration.write_text(kind.configuration.format(
            folder=folder, host=HOST, port=port, servers=servers, backends=ports, zones=zones, limits=limits, log=LOG,
            passed="/api/" if kind.has_files else "/", log_format=kind.log_format,
            escaped_format=kind.log_format.replace('"', r'\"'), server_lines="\n".join(lines)))
        with open(folder / LOG, "ab") as log, open(folder / "errors", "wb") as errors:  # HAProxy logs to its output
            words = [*kind.words, configuration]
            with running(words, kind.end_signal, stdout=log, stderr=errors, start_new_session=True):
                wait_until(lambda: answers_at(port), kind.words[0])
                yield port


def logged_times(folder, times):
    """The times of requests in a log by their numbers, in microseconds."""
    found = times.pattern.findall((folder / LOG).read_text())
    return {int(number): round(float(took) * times.unit) for number, took in found}
