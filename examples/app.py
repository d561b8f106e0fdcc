#!/usr/bin/env python3
"""A hospital's records on the web. Each time that one is to be read or written, it is asked of a server who may.

Usage: app.py PORT MACHINE     listens on PORT of 127.0.0.1 (0: one that the system picks) and says which; MACHINE is the port of
a server into which `app.lines` was loaded

    POST /login, body USER     signs the user in, and answers a token; all others bring `Authorization: Bearer TOKEN`
    POST /logout               signs out
    GET /WARD/NAME             the text of a record, for who may read it
    PUT /WARD/NAME             writes it, for who may write it; a new one is made on the ward, for who may create an object there

401 is answered where nobody is signed in, 403 where the server says no, 503 where it says nothing; then nothing was read or
written. Who a user is the application takes their word for: put before it what finds out. Its texts are kept in memory alone.
"""
import http.server
import secrets
import signal
import sys

from client import Client, Ended, NoAnswer, Refused

# The most bytes of a text.
LONGEST = 100_000


class Hospital:
    """The records, each a ward and a text by the name of its object, and the sessions of users by their tokens."""

    def __init__(self, machine):
        self.machine = machine
        self.records = {}
        self.sessions = {}
        self.placed = set()  # which records were made in which run of the server

    def login(self, user):
        session, token = self.machine.session(user), secrets.token_urlsafe()
        self.sessions[token] = session
        return 200, token

    def logout(self, session, token):
        self.sessions.pop(token, None)
        session.end()
        return 200, ""

    def read(self, session, ward, name):
        record = f"{ward}.{name}"
        self.place(session, record)
        if not session.may("read", record):
            return 403, ""
        return (200, self.records[record][1]) if record in self.records else (404, "")

    def write(self, session, ward, name, text):
        record = f"{ward}.{name}"
        self.place(session, record)
        if record not in self.records:
            make(session.ask, ward, record)
        if not session.may("write", record):
            return 403, ""
        self.records[record] = (ward, text)
        return 200, ""

    def place(self, session, record):
        """A run of the server knows the policy that was loaded into it, and not what was made in another: so that is made again."""
        if record in self.records and (session.run, record) not in self.placed:
            make(lambda **request: self.machine.ask({**request, "proc": 0}, session.run), self.records[record][0], record)
            self.placed.add((session.run, record))


def make(ask, ward, record):
    """An object in a container that is in both classes. One that is there already is one whose reply was lost."""
    try:
        ask(cmd="create_object", into=f"{ward}_records", name=record)
    except Refused as no:
        if no.reply["no"] != "name_taken":
            raise


class Page(http.server.BaseHTTPRequestHandler):
    hospital = None
    timeout = 10

    def answer(self):
        token = self.headers.get("Authorization", "").removeprefix("Bearer ")
        try:
            status, text = self.answered(token)
        except Ended:
            self.hospital.sessions.pop(token, None)
            status, text = 401, "sign in"
        except NoAnswer:
            status, text = 503, ""
        except Refused:
            status, text = 403, ""
        except ValueError:
            status, text = 400, ""
        body = text.encode()
        self.send_response(status)
        self.send_header("Content-Type", "text/plain; charset=utf-8")
        self.send_header("Content-Length", str(len(body)))
        self.end_headers()
        self.wfile.write(body)

    do_GET = do_PUT = do_POST = answer

    def answered(self, token):
        hospital, path = self.hospital, self.path.split("/")[1:]
        if (self.command, path) == ("POST", ["login"]):
            return hospital.login(self.body())
        session = hospital.sessions.get(token)
        if session is None:
            return 401, "sign in"
        match self.command, path:
            case "POST", ["logout"]:
                return hospital.logout(session, token)
            case "GET", [ward, name]:
                return hospital.read(session, ward, name)
            case "PUT", [ward, name]:
                return hospital.write(session, ward, name, self.body())
        return 404, ""

    def body(self):
        length = int(self.headers.get("Content-Length", ""))
        if not 0 <= length <= LONGEST:
            raise ValueError("too long")
        body = self.rfile.read(length)
        if len(body) < length:
            raise ValueError("cut off")
        return body.decode()


def main():
    port, machine = map(int, sys.argv[1:])
    signal.signal(signal.SIGTERM, lambda *_: sys.exit(0))
    with Client(machine) as client, http.server.ThreadingHTTPServer(("127.0.0.1", port), Page) as server:
        Page.hospital = Hospital(client)
        print(f"listening 127.0.0.1:{server.server_port}", flush=True)
        server.serve_forever()


if __name__ == "__main__":
    main()
