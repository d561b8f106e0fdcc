#!/usr/bin/env python3
"""A client of a server, to be copied: sessions of users, and what their processes may do.

    with Client(7654) as machine, machine.session("ann") as ann:
        if ann.may("read", "memo"):
            ...

Where no reply comes, `NoAnswer` is raised, so that what was to follow doesn't happen. Nothing is sent a second time, since what was
sent may have been accepted; the next request connects anew. A server keeps nothing beyond its end, and another run gives the same
numbers to other users: so a session is of one run, and `Ended` is raised where it is asked in another. A client that is killed
leaves its sessions open.

As a command: client.py PORT PROC TARGET RIGHT..     each RIGHT is one that process PROC is to have on TARGET; prints what each
access comes to, and ends with 0 where all are granted
"""
import contextlib
import json
import secrets
import select
import socket
import sys
import threading
import time

# For how many seconds a worker may not have heard of what was told elsewhere.
BEHIND = 1.0


class Refused(Exception):
    """The server says no; `reply` says why."""

    def __init__(self, reply):
        super().__init__(json.dumps(reply))
        self.reply = reply


class NoAnswer(Exception):
    """No reply came. What was asked may have been accepted or not."""


class Ended(NoAnswer):
    """The server is another run: the sessions that this client had are gone, and so is what it made."""


class Client(contextlib.AbstractContextManager):
    """One connection, made anew where it was closed. Any thread may ask; they take turns. A reply is awaited for so many seconds."""

    def __init__(self, port, host="127.0.0.1", seconds=5.0):
        self.where, self.seconds = (host, port), seconds
        self.lock = threading.RLock()
        self.link = self.replies = None
        self.number = 0  # of the last request
        self.version = 0  # the highest that was heard of
        self.run = None  # the name of a policy class that stands in this run alone
        self.sessions = set()

    def session(self, user):
        """A session of the user, with a process."""
        with self.lock:
            if self.run is None:
                run = "run-" + secrets.token_hex(8)
                self.ask({"cmd": "create_pc", "name": run, "proc": 0})
                self.run = run
            return Session(self, user)

    def ask(self, request, run=None):
        """The reply to a request that isn't refused. Where a run is given it is asked in that one alone."""
        with self.lock:
            self._connect()
            if run not in (None, self.run):
                raise Ended("the session was of another run")
            reply = self._exchange(request)
        if "ok" not in reply:
            raise Refused(reply)
        return reply

    def close(self):
        """Ends the sessions, and the connection."""
        with self.lock:
            with contextlib.suppress(Refused, NoAnswer):
                for session in list(self.sessions):
                    session.end()
                if self.run:
                    self.ask({"cmd": "delete", "name": self.run, "proc": 0}, self.run)
            self.run = None
            self._disconnect()

    def __exit__(self, *_):
        self.close()

    def _connect(self):
        # What can be read before anything was asked is an end: the server has closed.
        if self.link and not is_readable(self.link):
            return
        self._disconnect()
        try:
            self.link = socket.create_connection(self.where, self.seconds)
        except OSError as error:
            raise NoAnswer(f"no connection: {error}") from error
        self.replies = self.link.makefile("rb")
        try:
            self._look_for_run()
        except BaseException:
            self._disconnect()
            raise

    def _look_for_run(self):
        # A connection is to one run as long as it lasts, so it is enough to look at first. Access to a class is always denied.
        if self.run:
            reply = self._exchange({"cmd": "access", "proc": 0, "right": "read", "target": self.run})
            if reply.get("no") != "denied":
                self._forget()

    def _disconnect(self):
        if self.link:
            self.replies.close()
            self.link.close()
        self.link = self.replies = None

    def _forget(self):
        self.run, self.version = None, 0
        self.sessions.clear()
        raise Ended("the server is another run")

    def _exchange(self, request):
        """The reply of a worker that has heard of all that this client has."""
        end = time.monotonic() + BEHIND
        while True:
            self.number += 1
            reply = self._reply({**request, "after": self.version, "id": self.number})
            if reply.get("no") != "ahead":
                self.version = max(self.version, reply["v"])
                return reply
            if time.monotonic() > end:
                self._forget()
            time.sleep(0.002)

    def _reply(self, request):
        try:
            self.link.sendall(json.dumps(request).encode() + b"\n")
            line = self.replies.readline()
            reply = json.loads(line)
            if line.endswith(b"\n") and reply["id"] == request["id"] and reply["v"] >= 0:
                return reply
            raise ValueError(f"{line} isn't the reply to {request}")
        except (OSError, ValueError, KeyError, TypeError) as error:
            self._disconnect()
            raise NoAnswer(f"no reply: {error}") from error


class Session(contextlib.AbstractContextManager):
    """A session of a user, with one process; both end with it."""

    def __init__(self, client, user):
        self.client, self.run = client, client.run
        self.number = client.ask({"cmd": "open_session", "user": user}, self.run)["session"]
        client.sessions.add(self)
        try:
            self.process = client.ask({"cmd": "start_process", "session": self.number}, self.run)["process"]
        except Refused:
            self.end()
            raise

    def ask(self, **request):
        """The reply to a request by the session's process."""
        return self.client.ask({**request, "proc": self.process}, self.run)

    def may(self, right, target):
        """Whether the user may; all but a grant is a no."""
        try:
            return self.ask(cmd="access", right=right, target=target)["ok"] == "granted"
        except Refused:
            return False

    def end(self):
        with self.client.lock, contextlib.suppress(Refused):
            self.client.sessions.discard(self)
            self.client.ask({"cmd": "close_session", "session": self.number}, self.run)

    def __exit__(self, *_):
        with contextlib.suppress(NoAnswer):
            self.end()


def is_readable(link):
    waiting = select.poll()
    waiting.register(link, select.POLLIN)
    return bool(waiting.poll(0))


def main():
    port, proc, target, *rights = sys.argv[1:]
    granted = True
    with Client(int(port)) as machine:
        for right in rights:
            try:
                word = machine.ask({"cmd": "access", "proc": int(proc), "right": right, "target": target})["ok"]
            except Refused as no:
                word, granted = no.reply["no"], False
            print(right, word)
    sys.exit(not granted)


if __name__ == "__main__":
    try:
        main()
    except NoAnswer as none:
        sys.exit(str(none))
