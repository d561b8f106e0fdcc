#!/usr/bin/env python3
"""Gives a server the requests of a file, one after another, and stops at the first that is refused.

Usage: load.py PORT FILE [SECONDS]     waits so many seconds at most for the server to listen (default: 10)

Lines that are empty or begin with # are passed by. It ends with 0 where all were accepted, and says the version; else with 1,
and says the number of the line, the line and its reply. What stands before that line was accepted, and stays.
"""
import json
import socket
import sys
import time


def connected(port, seconds):
    """A connection, once the server listens."""
    end = time.monotonic() + seconds
    while True:
        try:
            return socket.create_connection(("127.0.0.1", port), seconds)
        except ConnectionRefusedError:
            if time.monotonic() > end:
                sys.exit(f"nobody listens on port {port}")
            time.sleep(0.1)


def requests(path):
    """The lines of the file that are requests, with their numbers from 1."""
    with open(path, "rb") as file:
        for number, line in enumerate(file, 1):
            if line.strip() and not line.startswith(b"#"):
                yield number, line.strip()


def main():
    port, path, *seconds = sys.argv[1:]
    reply = {"v": 0}
    with connected(int(port), float(seconds[0]) if seconds else 10.0) as link, link.makefile("rb") as replies:
        for number, line in requests(path):
            link.sendall(line + b"\n")
            told = replies.readline()
            if not told.endswith(b"\n"):
                sys.exit(f"{path}:{number}: the server closed before it replied to {line.decode()}")
            reply = json.loads(told)
            if "no" in reply:
                sys.exit(f"{path}:{number}: {line.decode()}\n{told.decode().strip()}")
    print(f"loaded, version {reply['v']}")


main()
