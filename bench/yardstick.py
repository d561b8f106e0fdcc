"""What the measurements share: where the program is, its peak memory, and the yardstick.

Run by itself it is the yardstick: a loop in Python that reads each line's JSON with `json.loads` and writes one reply.
"""
import json
import os
import subprocess
import sys

ROOT = os.path.dirname(os.path.dirname(os.path.realpath(__file__)))
PROGRAM = os.path.join(ROOT, "crates", "ngac", "out", "ngac")
YARDSTICK = [sys.executable, os.path.realpath(__file__)]


def build():
    """Has the launcher build the program where need be, and stops where there is none then."""
    if subprocess.run([os.path.join(ROOT, "ngac"), "run"], stdin=subprocess.DEVNULL).returncode != 0:
        sys.exit("the program isn't built")


def peak_kib(process):
    """The most memory that the process has held so far, in KiB, or 0 where it has ended."""
    try:
        with open(f"/proc/{process.pid}/status", encoding="ascii") as file:
            return next((int(row.split()[1]) for row in file if row.startswith("VmHWM:")), 0)
    except OSError:
        return 0


def answer_lines():
    for text in sys.stdin.buffer:
        try:
            json.loads(text)
            os.write(1, b'{"ok":"done","v":0}\n')
        except ValueError:
            os.write(1, b'{"no":"not_json","v":0}\n')


if __name__ == "__main__":
    answer_lines()
