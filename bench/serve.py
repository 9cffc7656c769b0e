#!/usr/bin/env python3
"""Times a relay that serves one connection beside a plain server that writes the same bytes (serve_floor.rs): requests a second,
and microseconds of the server's processor time a request, for replies of one window of 4 KB and of 1 MB and of 32 windows of 100
bytes, with 1 and with 16 requests sent before their answers are read. The least of several runs.

Usage: serve.py [RUNS]. Build the program first, as built.py says; rustc must be on the path.
"""
import pathlib
import resource
import socket
import subprocess
import sys
import tempfile
import time

from built import HERE, PROGRAM, need_program, processor

PORT = 8765
REQUESTS = {"32 small": 20_000, "4 KB": 20_000, "1 MB": 20_000}
# The windows of a reply, the changes of each and the bytes of a payload.
PAYLOADS = {"32 small": (32, 1, 60), "4 KB": (1, 1, 4_056), "1 MB": (1, 16, 65_511)}
WINDOW_MARK, EVENT_HEAD = 17, 23


def body_size(name):
    windows, count, size = PAYLOADS[name]
    return windows * (count * (EVENT_HEAD + size) + WINDOW_MARK)


def script(name):
    windows, count, size = PAYLOADS[name]
    changes = " ".join(f"0/{key}={'07' * size}" for key in range(count))
    return "".join(f"commit {scn + 1} {changes}\n" for scn in range(windows)).encode()


def connected():
    while True:
        try:
            return socket.create_connection(("127.0.0.1", PORT))
        except ConnectionRefusedError:
            time.sleep(0.01)


def answers(conn, requests, depth, size):
    """Sends so many requests, and reads each answer of so many bytes."""
    request = b"GET /stream?scn=0&filter=all&max=16777216 HTTP/1.1\r\nHost: localhost\r\n\r\n"
    room = bytearray(1 << 20)
    for _ in range(requests // depth):
        conn.sendall(request * depth)
        left = depth * size
        while left:
            count = conn.recv_into(room, min(left, len(room)))
            if not count:
                sys.exit("the server closed the connection")
            left -= count


def timed(words, given, requests, depth, size):
    """The seconds that the requests took, and the processor seconds that the server took in all."""
    before = resource.getrusage(resource.RUSAGE_CHILDREN)
    with tempfile.TemporaryFile() as source:
        source.write(given)
        source.seek(0)
        server = subprocess.Popen(words, stdin=source, stdout=subprocess.DEVNULL)
        with connected() as conn:
            start = time.perf_counter()
            answers(conn, requests, depth, size)
            seconds = time.perf_counter() - start
        if server.wait():
            sys.exit(f"{words[0]} ended with {server.returncode}")
    after = resource.getrusage(resource.RUSAGE_CHILDREN)
    return seconds, after.ru_utime + after.ru_stime - before.ru_utime - before.ru_stime


def least(words, given, requests, depth, size, runs):
    idle = min(timed(words, given, 0, depth, size)[1] for _ in range(runs))
    times = [timed(words, given, requests, depth, size) for _ in range(runs)]
    return min(t[0] for t in times) / requests, (min(t[1] for t in times) - idle) / requests


def main():
    runs = int(sys.argv[1]) if len(sys.argv) > 1 else 3
    need_program()
    print(processor())
    with tempfile.TemporaryDirectory() as folder:
        floor = pathlib.Path(folder) / "serve_floor"
        subprocess.run(["rustc", "-O", "-o", floor, HERE / "serve_floor.rs"], check=True)
        relay = [PROGRAM, "relay", "--port", str(PORT), "--bytes", "16777216", "--windows", "64", "--connections", "1"]
        print(f"{'reply':8} {'sent ahead':>10} {'requests/s':>11} {'plain':>9} {'us/request':>11} {'plain':>7} {'ratio':>6}")
        for name, requests in REQUESTS.items():
            size = body_size(name)
            head = len(f"HTTP/1.1 200 OK\r\nContent-Type: application/octet-stream\r\nContent-Length: {size}\r\n\r\n")
            for depth in (1, 16):
                ours = least(relay, script(name), requests, depth, head + size, runs)
                plain = least([floor, str(PORT), str(size)], b"", requests, depth, head + size, runs)
                print(
                    f"{name:8} {depth:>10} {1 / ours[0]:>11.0f} {1 / plain[0]:>9.0f}"
                    f" {ours[1] * 1e6:>11.1f} {plain[1] * 1e6:>7.1f} {ours[1] / plain[1]:>6.2f}"
                )


main()
