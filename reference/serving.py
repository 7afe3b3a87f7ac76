"""Connections: heads, responses, and serving on a socket."""
import contextlib
import re
import socket

from answers import reply_of, request_of
from basics import Refused, compact, text_or_none

HEAD_BYTES, CONNECTION_BYTES, FIELDS, PIECE_BYTES, LINGER_SECONDS = 8192, 2**20, 64, 4096, 2

# ---- Heads and connections ----
TOKEN = rb"[!#$%&'*+.^_`|~0-9A-Za-z-]+"
HEAD = re.compile(TOKEN + rb" (?P<target>[\x21-\x7e\x80-\xff]+) HTTP/1\.(?P<minor>[01])\r?\n"
                  rb"(?P<fields>(?:" + TOKEN + rb":[\t\x20-\x7e\x80-\xff]*\r?\n)*)\r?\n")
REASONS = {200: "OK", 400: "Bad Request", 404: "Not Found", 405: "Method Not Allowed", 431: "Request Header Fields Too Large"}
STATUSES = {'{"error":"path"}': 404, '{"error":"method"}': 405}    # of refusals; all others have 400
MORE, TOO_LONG = "more", "too long"


def frame(unread):
    """Where a head begins and ends: behind the empty lines in front, and behind the next empty line."""
    front = unread[:HEAD_BYTES]
    begin = re.match(rb"(?:\r?\n)*", front).end()
    if found := re.compile(rb"(?:[^\n]*\n)*?\r?\n").match(front, begin):
        return begin, found.end()
    return MORE if len(front) < HEAD_BYTES else TOO_LONG


def response(closed, body, status):
    """The bytes of a response; the connection is closed after it or isn't."""
    lines = [f"HTTP/1.1 {status} {REASONS[status]}", *["Allow: GET"] * (status == 405), "Content-Type: application/json",
             f"Content-Length: {len(body.encode())}", *["Connection: close"] * closed, "", body]
    return "\r\n".join(lines).encode()


def judged_head(head):
    """The target of a head, and whether the connection is closed after it. What is no head, or has a body, is refused."""
    found = HEAD.fullmatch(head)
    fields = [(name.lower(), value.strip(b" \t")) for name, value in re.findall(rb"([^:\n]+):([^\r\n]*)", found["fields"] if found else b"")]
    if not found or text_or_none(found["target"]) is None or len(fields) > FIELDS:
        raise Refused({"error": "head"})
    for name, value in fields:
        if name == b"transfer-encoding" or name == b"content-length" and not re.fullmatch(b"0+", value):
            raise Refused({"error": "body"})
    pieces = [piece.strip(b" \t").lower() for name, value in fields if name == b"connection" for piece in value.split(b",")]
    return found["target"], found["minor"] == b"0" or b"close" in pieces


def answer_head(corpus, head):
    """The response to a head, and whether the connection is closed after it."""
    closed = True
    try:
        target, closed = judged_head(head)
        path, _, parameters = target.partition(b"?")
        if path != b"/search":
            raise Refused({"error": "path"})
        if not head.startswith(b"GET "):
            raise Refused({"error": "method"})
        return response(closed, compact(reply_of(corpus, request_of(parameters))), 200), closed
    except Refused as refusal:
        text = compact(refusal.args[0])
        return response(closed, text, STATUSES.get(text, 400)), closed


def answers(corpus, came):
    """All that is sent on a connection on which these bytes came, and whether it is closed then."""
    unread, sent = came[:CONNECTION_BYTES], b""
    while True:
        framed = frame(unread)
        if framed == MORE:
            return sent, len(came) >= CONNECTION_BYTES
        if framed == TOO_LONG:
            return sent + response(True, compact({"error": "head too long"}), 431), True
        begin, end = framed
        text, closed = answer_head(corpus, unread[begin:end])
        sent, unread = sent + text, unread[end:]
        if closed:
            return sent, True


def serve_connection(corpus, connection):
    """Sends what the bytes so far ask, until the peer or the answers end it."""
    came, sent, closed = b"", b"", False
    while not closed and (piece := connection.recv(PIECE_BYTES)):
        came, before = came + piece, len(sent)
        sent, closed = answers(corpus, came)
        connection.sendall(sent[before:])
    connection.shutdown(socket.SHUT_WR)
    connection.settimeout(LINGER_SECONDS)
    while connection.recv(PIECE_BYTES):
        pass                                     # bytes left unread would make the system take back what was sent


def serve(corpus, port, connections, put):
    """Serves so many connections, one after the other, on the loopback; one that fails ends alone."""
    with socket.create_server(("127.0.0.1", int(port))) as listener:
        put(f"serving {port}\n".encode())
        for _ in range(int(connections)):
            with listener.accept()[0] as connection, contextlib.suppress(OSError):
                serve_connection(corpus, connection)
