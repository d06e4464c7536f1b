#!/usr/bin/env python3
"""Measures the program's two engines side by side on large inputs, with its replies thrown away.

usage: measure.py PROGRAM [RUNS]

Each input is replayed from files with a report, by the plain and the staged engine in turn, RUNS times each (3 if
left out), with settings that admit each request and that leave the stages, the batch and the cache as they are by
default. Of each engine's runs the fastest is taken: its seconds, the seconds that all processors worked for it,
requests a second, microseconds a request, bytes a second (read and written), and the peak of memory beside the size
of the snapshot. A line of each input says how its two times stand to those of the plain engine. The inputs stand in a
folder of their own while it runs, and need about 300 MB. Run it on a machine that does nothing else.

Where `valgrind` is there, it also counts the instructions that a request takes: those of 3,000 requests less those of
1,000, by 2,000. That count doesn't depend on what else the machine does. At the end stands the table as README has it.
"""
import os
import re
import shutil
import subprocess
import sys
import tempfile
import time

START = 784111777
CONNECTIONS = 100
FIELDS = [
    (b"Host", b"www.example.org"),
    (b"Connection", b"keep-alive"),
    (b"sec-ch-ua", b'"Chromium";v="126", "Google Chrome";v="126", "Not-A.Brand";v="99"'),
    (b"sec-ch-ua-mobile", b"?0"),
    (b"sec-ch-ua-platform", b'"Linux"'),
    (b"Upgrade-Insecure-Requests", b"1"),
    (b"User-Agent", b"Mozilla/5.0 (X11; Linux x86_64) AppleWebKit/537.36 (KHTML, like Gecko) Chrome/126.0.0.0 "
                    b"Safari/537.36"),
    (b"Accept", b"text/html,application/xhtml+xml,application/xml;q=0.9,image/avif,image/webp,*/*;q=0.8"),
    (b"Sec-Fetch-Site", b"same-origin"),
    (b"Sec-Fetch-Mode", b"navigate"),
    (b"Sec-Fetch-User", b"?1"),
    (b"Sec-Fetch-Dest", b"document"),
    (b"Referer", b"https://www.example.org/index.html"),
    (b"Accept-Encoding", b"gzip, deflate, br, zstd"),
    (b"Accept-Language", b"en-GB,en;q=0.9"),
]


def snapshot(files):
    """The text of a snapshot of these files: pairs of name and bytes, by rising name."""
    parts = [b"haboob-snapshot 1\n"]
    for name, data in files:
        parts += [b"file %d %d %d\n" % (START, len(name), len(data)), name, b"\n", data, b"\n"]
    parts.append(b"end %d\n" % len(files))
    return b"".join(parts)


def write_capture(file, requests):
    """The text of a capture of these requests, one to a piece, a microsecond apart, on the connections in turn."""
    file.write(b"haboob-capture 1 %d\n" % START)
    count = 0
    for request in requests:
        file.write(b"piece %d %d %d\n%b\n" % (count, count % CONNECTIONS, len(request), request))
        count += 1
    file.write(b"stop %d\n" % count)


def small(count):
    """n requests of 32 bytes for a file of 3."""
    request = b"GET /a.txt HTTP/1.1\r\nHost: a\r\n\r\n"
    return [(b"a.txt", b"hi\n")], (request for _ in range(count))


def large(count):
    """n requests over 1,000 files of 1 to 16 KiB, in an order that jumps."""
    names = [b"files/%04d.html" % number for number in range(1000)]
    files = [(name, b"x" * (1024 + number * 15360 // 999)) for number, name in enumerate(names)]
    requests = [b"GET /%b HTTP/1.1\r\nHost: a\r\n\r\n" % name for name in names]
    return files, (requests[number * 617 % 1000] for number in range(count))


def browsers(count):
    """n requests over 1,000 files of 1 to 16 KiB as a browser writes them: some 700 bytes in 15 fields."""
    files, _ = large(0)
    fields = b"".join(b"%b: %b\r\n" % field for field in FIELDS)
    requests = [b"GET /%b HTTP/1.1\r\n%b\r\n" % (name, fields) for name, _ in files]
    return files, (requests[number * 617 % 1000] for number in range(count))


def huge(count):
    """n requests over 64 files of 256 KiB to 1 MiB, in an order that jumps. The default cache has room for all."""
    names = [b"files/%02d.html" % number for number in range(64)]
    files = [(name, b"x" * (262144 + number * 786432 // 63)) for number, name in enumerate(names)]
    requests = [b"GET /%b HTTP/1.1\r\nHost: a\r\n\r\n" % name for name in names]
    return files, (requests[number * 37 % 64] for number in range(count))


INPUTS = [
    ("1,000,000 of 32 bytes", 1_000_000, small),
    ("1,000,000 for 1 to 16 KiB", 1_000_000, large),
    ("300,000 of browsers", 300_000, browsers),
    ("20,000 for 256 KiB to 1 MiB", 20_000, huge),
]
ENGINES = ["plain", "staged"]
FEW, MANY = 1000, 3000

# Settings that admit each request, so that all are answered and each has a sample.
SETTINGS = b"[policy]\ndepth = 1000000\nrate = 1000000000\nrate_max = 1000000000\n"


class Run:
    """One way to run the program on an input: its words."""

    def __init__(self, words):
        self.words = words

    def start(self, output):
        """Starts the program, with its standard output into a device."""
        child = os.fork()
        if child == 0:
            os.dup2(output, 1)
            os.execv(self.words[0], self.words)
        return child

    def time(self):
        """The seconds and the processor times of a run whose output goes to the null device."""
        with open(os.devnull, "wb") as null:
            started = time.monotonic()
            child = self.start(null.fileno())
            _, status, usage = os.wait4(child, 0)
        if status != 0:
            sys.exit("the program failed")
        return time.monotonic() - started, usage

    def peak_of_memory(self):
        """The most memory that a run had, in bytes. (The usage that wait4 tells also counts what this script had.)"""
        peak = 0
        with open(os.devnull, "wb") as null:
            child = self.start(null.fileno())
            while os.waitpid(child, os.WNOHANG) == (0, 0):
                with open("/proc/%d/comm" % child) as comm, open("/proc/%d/status" % child) as status:
                    if comm.read().strip() == os.path.basename(self.words[0])[:15]:
                        peak = max(
                            [peak] + [int(line.split()[1]) * 1024 for line in status if line.startswith("VmHWM")]
                        )
                time.sleep(0.002)
        return peak


def count_replies(run):
    """How many bytes the replies are, which the run writes to its standard output."""
    reader, writer = os.pipe()
    child = run.start(writer)
    os.close(writer)
    total = 0
    while piece := os.read(reader, 1 << 20):
        total += len(piece)
    os.close(reader)
    os.waitpid(child, 0)
    return total


def write_inputs(folder, text, requests):
    """Writes the snapshot, the capture and the settings; answers the names of the files."""
    names = {name: os.path.join(folder, name) for name in ("snapshot", "capture", "settings")}
    with open(names["snapshot"], "wb") as file:
        file.write(text)
    with open(names["capture"], "wb") as file:
        write_capture(file, requests)
    with open(names["settings"], "wb") as file:
        file.write(SETTINGS)
    return names


def fastest(engines, runs):
    """The seconds and the processor times of each engine's fastest run. The engines take turns."""
    times = {name: [] for name in engines}
    for _ in range(runs):
        for name, run in engines.items():
            times[name].append(run.time())
    return {name: min(results, key=lambda result: result[0]) for name, results in times.items()}


def replay_words(program, names):
    """The words of a replay of these files, but for its engine and where its replies go."""
    words = [program, "replay"]
    for name in ("snapshot", "capture", "settings"):
        words += ["--" + name, names[name]]
    return words


def count_instructions(program, make, folder):
    """How many instructions a request takes with each engine, by valgrind's callgrind."""
    totals = {}
    for count in (FEW, MANY):
        files, requests = make(count)
        names = write_inputs(folder, snapshot(files), requests)
        for engine in ENGINES:
            words = ["valgrind", "--tool=callgrind", "--callgrind-out-file=/dev/null"]
            words += replay_words(program, names) + ["--replies", os.devnull, "--engine", engine]
            said = subprocess.run(words, capture_output=True, text=True, check=True).stderr
            totals[engine, count] = int(re.search(r"Collected : (\d+)", said).group(1))
    return {engine: (totals[engine, MANY] - totals[engine, FEW]) / (MANY - FEW) for engine in ENGINES}


def row_of(title, rates, ratio):
    """A row of README's table."""
    counts = ["%s, %.0f MiB" % (format(round(rate, -3), ",.0f"), peak / 2**20) for rate, peak in rates]
    return "| %s | %s | %.2f |" % (title, " | ".join(counts), ratio)


def measure(program, runs, title, count, make, folder):
    """Prints what the engines took for an input; answers its row of the table."""
    files, requests = make(count)
    text = snapshot(files)
    names = write_inputs(folder, text, requests)
    size = os.path.getsize(names["snapshot"]) + os.path.getsize(names["capture"])
    words = replay_words(program, names)
    written = count_replies(Run(words + ["--replies", "/dev/stdout", "--engine", "plain"]))
    engines = {name: Run(words + ["--replies", os.devnull, "--engine", name]) for name in ENGINES}
    best = fastest(engines, runs)
    print("%s, snapshot %.1f MiB" % (title, len(text) / 2**20))
    rates = []
    for name, (seconds, usage) in best.items():
        peak = engines[name].peak_of_memory()
        rates.append((count / seconds, peak))
        print(
            "  %-6s %6.2f s (processors %.2f s)  %9.0f requests/s  %6.2f us a request"
            "  %5.0f MB/s read  %5.0f MB/s written  peak %.1f MiB"
            % (
                name,
                seconds,
                usage.ru_utime + usage.ru_stime,
                count / seconds,
                seconds / count * 1e6,
                size / seconds / 1e6,
                written / seconds / 1e6,
                peak / 2**20,
            )
        )
    worked = {name: usage.ru_utime + usage.ru_stime for name, (_, usage) in best.items()}
    ratios = best["staged"][0] / best["plain"][0], worked["staged"] / worked["plain"]
    print("  staged to plain: %.2f the time, %.2f that of the processors" % ratios, flush=True)
    instructions = count_instructions(program, make, folder) if shutil.which("valgrind") else {}
    for name, each in instructions.items():
        print("  %-6s %.0f instructions a request" % (name, each), flush=True)
    for name in names.values():
        os.unlink(name)
    return row_of(title, rates, ratios[0])


def main():
    if len(sys.argv) not in (2, 3):
        sys.exit(__doc__)
    if not os.access(sys.argv[1], os.X_OK):
        sys.exit("%s: no program %s\n\n%s" % (sys.argv[0], sys.argv[1], __doc__))
    program = os.path.abspath(sys.argv[1])
    runs = int(sys.argv[2]) if len(sys.argv) == 3 else 3
    with tempfile.TemporaryDirectory() as folder:
        rows = [measure(program, runs, title, count, make, folder) for title, count, make in INPUTS]
    print("\n".join(rows))


if __name__ == "__main__":
    main()
