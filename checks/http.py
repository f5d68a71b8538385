#!/usr/bin/env python3
"""Holds http_wire's tests against Python's own HTTP, which shares no line with the proved code, in both directions.

The texts of `crates/http_wire/src/exchanges.rt` that `http.client` or `http.server` wrote are made here anew, and must
be the same. Those that `write_request` and `write_response` write, as tests there show, are put before `http.server` and
`http.client`, which must read out of them what was written in.

    http.py [FILE]

`http.py --print` writes what Python writes, as text for that file.
"""
import sys

del sys.path[0]  # this file's folder, where this file would be taken for the module http

import http.client
import http.server
import io
import os
import re

TOP = os.path.dirname(os.path.dirname(os.path.abspath(__file__)))
FILE = os.path.join(TOP, "crates/http_wire/src/exchanges.rt")
CONSTANT = re.compile(r'const ([A-Z_]+): &str =\s*"((?:[^"\\]|\\.)*)";')
ESCAPE = {"r": "\r", "n": "\n", "\\": "\\", '"': '"', "0": "\0"}
TEEP = "application/teep+cbor"

# Requests that are sent or were written: name, method, path, media type, body.
REQUESTS = (
    ("POST", "POST", "/teep", TEEP, b"hi"),
    ("EMPTY_POST", "POST", "/teep", TEEP, b""),
    ("GET", "GET", "/a?b#c", None, None),
)
# Responses: name, status, media type, body.
RESPONSES = (
    ("OK", 200, "application/octet-stream", b"hi"),
    ("NO_CONTENT", 204, None, b""),
    ("NOT_FOUND", 404, None, b""),
)


def constants(path):
    """The texts of a file of constants, as bytes."""
    with open(path, encoding="utf-8") as text:
        found = CONSTANT.findall(text.read())
    return {name: re.sub(r"\\(.)", lambda at: ESCAPE[at[1]], value).encode("ascii") for name, value in found}


class Kept(io.BytesIO):
    """Bytes that are still there when the file is closed."""

    def close(self):
        pass


class Socket:
    """A socket that gives these bytes and keeps what is sent."""

    def __init__(self, given=b""):
        self.given = given
        self.sent = b""

    def makefile(self, *_, **__):
        return io.BytesIO(self.given)

    def sendall(self, data):
        self.sent += bytes(data)

    def close(self):
        pass


def sent_by_client(method, path, media, body):
    """What http.client sends to 127.0.0.1:8080."""
    connection = http.client.HTTPConnection("127.0.0.1", 8080)
    connection.sock = Socket()
    headers = {"Accept": TEEP, "Content-Type": media} if media else {}
    connection.request(method, path, body=body, headers=headers)
    return connection.sock.sent


class Server(http.server.BaseHTTPRequestHandler):
    """A handler without a socket: it reads one request of these bytes, and keeps it and what it writes."""

    protocol_version = "HTTP/1.1"
    server_version = "python"
    sys_version = ""

    def __init__(self, given, answer=None):
        self.rfile, self.wfile = io.BytesIO(given), Kept()
        self.client_address, self.server = ("127.0.0.1", 1), None
        self.answer, self.refused, self.body = answer, None, None
        self.handle_one_request()

    def date_time_string(self, timestamp=None):
        return "Tue, 01 Dec 2026 00:00:00 GMT"

    def log_message(self, *_):
        pass

    def send_error(self, code, message=None, explain=None):
        self.refused = code

    def do_POST(self):
        self.body = self.rfile.read(int(self.headers["Content-Length"]))
        self.reply()

    def do_GET(self):
        self.body = b""
        self.reply()

    def reply(self):
        if self.answer:
            status, media, body = self.answer
            self.send_response(status)
            if media:
                self.send_header("Content-Type", media)
            if status != 204:
                self.send_header("Content-Length", str(len(body)))
            self.end_headers()
            self.wfile.write(body)


def sent_by_server(status, media, body):
    """What http.server answers."""
    return Server(b"GET / HTTP/1.1\r\nHost: h\r\n\r\n", (status, media, body)).wfile.getvalue()


def read_by_server(text):
    """What http.server reads out of a request: method, path, fields, body, what is left, and whether the connection ends behind it."""
    seen = Server(text)
    if seen.refused:
        return f"refused with {seen.refused}"
    fields = seen.headers
    named = [fields[name] for name in ("Host", "Accept", "Content-Type", "Content-Length")]
    return seen.command, seen.path, *named, seen.body, seen.rfile.read(), seen.close_connection


def read_by_client(text):
    """What http.client reads out of a response: status, media type, body, and whether the connection ends behind it."""
    response = http.client.HTTPResponse(Socket(text))
    try:
        response.begin()
        will_close = response.will_close
        return response.status, response.getheader("Content-Type"), response.read(), will_close
    except http.client.HTTPException as fault:
        return f"refused: {fault!r}"


def made():
    """The texts that Python writes."""
    for name, method, path, media, body in REQUESTS:
        yield "CLIENT_" + name, sent_by_client(method, path, media, body)
    for name, status, media, body in RESPONSES:
        yield "SERVER_" + name, sent_by_server(status, media, body)


def faults(texts):
    """Where Python and the file differ."""
    for name, text in made():
        if texts.get(name) != text:
            yield f"{name}: Python writes {text}, the file has {texts.get(name)}"
    for name, method, path, media, body in REQUESTS:
        size = None if body is None else str(len(body))
        want = (method, path, "127.0.0.1:8080", media, media if body else None, size, body or b"", b"", True)
        seen = read_by_server(texts.get("WRITTEN_" + name, b""))
        if seen != want:
            yield f"WRITTEN_{name}: Python reads {seen}, and {want} was written"
    for name, status, media, body in RESPONSES:
        want = (status, media, body, True)
        seen = read_by_client(texts.get("ANSWERED_" + name, b""))
        if seen != want:
            yield f"ANSWERED_{name}: Python reads {seen}, and {want} was written"


def main():
    if sys.argv[1:] == ["--print"]:
        for name, text in made():
            shown = text.decode("ascii").replace("\r", "\\r").replace("\n", "\\n")
            print(f'pub const {name}: &str = "{shown}";')
        return 0
    found = list(faults(constants(sys.argv[1] if sys.argv[1:] else FILE)))
    for fault in found:
        print(fault)
    print(f"http: {len(found)} faults")
    return 1 if found else 0


if __name__ == "__main__":
    sys.exit(main())
