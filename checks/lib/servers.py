"""Servers that a check starts on this machine."""
import contextlib
import os
import signal
import socket
import subprocess
import time

HOST = "127.0.0.1"
SECONDS = 20  # that a process may take to its end


def free_port():
    """A port that nobody listens on."""
    with socket.create_server((HOST, 0)) as listener:
        return listener.getsockname()[1]


def answers_at(port):
    """Whether somebody listens on a port."""
    with socket.socket() as probe:
        return probe.connect_ex((HOST, port)) == 0


def is_soon(condition, seconds, process=None):
    """Waits until something holds, or a process has ended before; whether it holds."""
    end = time.monotonic() + seconds
    while not condition():
        if time.monotonic() > end or process and process.poll() is not None:
            return False
        time.sleep(0.02)
    return True


@contextlib.contextmanager
def running(words, end_signal=signal.SIGTERM, **options):
    """A process that is ended when its block is left, in whatever way. Where it has to be killed, and has a session of
    its own (start_new_session), its whole group is killed."""
    process = subprocess.Popen(list(map(str, words)), stdin=subprocess.DEVNULL, **options)
    try:
        yield process
    finally:
        process.send_signal(end_signal)
        try:
            process.wait(SECONDS)
        except subprocess.TimeoutExpired:
            if options.get("start_new_session"):
                os.killpg(process.pid, signal.SIGKILL)
            process.kill()
            process.wait()
            raise
