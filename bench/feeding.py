"""Feeding a program part after part through pipes, and comparing what it replies."""
import os
import subprocess
import sys
import threading
import time

SECONDS = 600


def write(pipe, lines):
    try:
        while lines:
            lines = lines[pipe.write(lines):]
    except OSError:
        pass


def feed(process, lines, count):
    """Feeds a part, and gives its seconds and its replies."""
    pieces, arrived = [], 0
    writer = threading.Thread(target=write, args=(process.stdin, memoryview(lines)), daemon=True)
    begun = time.perf_counter()
    writer.start()
    while arrived < count:
        piece = os.read(process.stdout.fileno(), 65536)
        if not piece:
            sys.exit(f"{process.args[0]} ended after {arrived} of {count} replies")
        pieces.append(piece)
        arrived += piece.count(b"\n")
    seconds = time.perf_counter() - begun
    writer.join()
    return seconds, b"".join(pieces)


def check(replies, wanted, name):
    """Stops where the replies aren't those wanted."""
    if replies != wanted:
        pairs = zip(replies.split(b"\n") + [b"(end)"], wanted.split(b"\n") + [b"(end)"])
        number, got, want = next((n, *pair) for n, pair in enumerate(pairs) if pair[0] != pair[1])
        sys.exit(f"wrong replies: {name}, line {number}: wanted {want[:200]!r}, got {got[:200]!r}")


def begin(words):
    """Starts a program. One that doesn't answer is ended after a time, so that reading from it ends too."""
    process = subprocess.Popen(words, stdin=subprocess.PIPE, stdout=subprocess.PIPE, bufsize=0)
    limit = threading.Timer(SECONDS, process.kill)
    limit.daemon = True
    limit.start()
    return process, limit


def end(process, limit):
    """Ends the input, after which nothing more may come."""
    process.stdin.close()
    rest, status = process.stdout.read(), process.wait()
    limit.cancel()
    if rest or status != 0:
        sys.exit(f"{process.args[0]} ended with status {status} and {len(rest)} bytes too many")
