"""Random bytes of connections, and what comes back on them."""
import socket
import threading
import time

from cases import parameters
from serving import FIELDS


def head(dice, world):
    method = dice.choices(["GET", "POST", "get", "HEAD", "G\tT"], [90, 4, 2, 2, 1])[0]
    path = dice.choices(["/search", "/", "/search/", "/Search", "*", "http://a/search", "/search#"], [90, 2, 2, 1, 1, 1, 1])[0]
    asked_for = parameters(dice, world, dice.choice([0, 2]))
    if dice.random() < 0.9:
        asked_for = b"".join(bytes([byte]) if 0x20 < byte < 0x7F else b"%%%02X" % byte for byte in asked_for)
    target = path.encode() + (b"?" + asked_for if dice.random() < 0.95 else b"")
    version = dice.choices(["HTTP/1.1", "HTTP/1.0", "HTTP/2.0", "HTTP/1.1 ", "http/1.1"], [90, 5, 1, 1, 1])[0]
    end = dice.choices([b"\r\n", b"\n"], [9, 1])[0]
    fields = [field(dice) for _ in range(dice.choice([0, 0, 1, 2, 4]))]
    if dice.random() < 0.02:
        fields += [b"A: b"] * (FIELDS + dice.randint(-1, 1) - len(fields))
    blank = dice.choices([b"", b"\r\n", b"\n\r\n", b"\r"], [90, 5, 3, 1])[0]
    return blank + end.join([method.encode() + b" " + target + b" " + version.encode(), *fields, b"", b""])


def field(dice):
    return dice.choice([
        b"Host: a", b"Host: a", b"Accept: */*", b"Connection: keep-alive", b"connection: CLOSE", b"Connection: x , close\t", b"Connection: closed",
        b"Content-Length: 0", b"content-length:\t00 ", b"Content-Length: 1", b"Content-Length:", b"Content-Length: 0, 0", b"Transfer-Encoding: chunked",
        b"transfer-encoding:", b"X: \xff\x80", b"X: a\x00", b"X : a", b": a", b"X", b" X: a", b"X:", b"X: \t a \t ", b"X: a\rb", b"X: \x7f",
    ]) if dice.random() < 0.5 else b"X-%d: y" % dice.randrange(9)


def stream(dice, world):
    """The bytes of one connection, cut at random."""
    data = b"".join(head(dice, world) for _ in range(dice.choice([0, 1, 1, 2, 3, 6])))
    if dice.random() < 0.1:
        data += bytes(dice.choice(b"GET /search\r\n\n :") for _ in range(dice.randint(1, 30)))
    if dice.random() < 0.05:
        data += dice.choice([b"\n", b"a", b"\r\n", b"GET /search?q=a HTTP/1.1\r\n"]) * dice.choice([300, 4095, 8191, 8192])
    if data and dice.random() < 0.2:
        place = dice.randrange(len(data))
        data = data[:place] + bytes([dice.randrange(256)])[:dice.randint(0, 1)] + data[place + 1:]
    cuts = sorted(dice.randint(0, len(data)) for _ in range(dice.choice([0, 0, 1, 3, 8])))
    return [data[begin:end] for begin, end in zip([0, *cuts], [*cuts, len(data)]) if begin < end]


def talk(port, pieces, seconds):
    """What comes back on one connection on which these pieces are sent; its writing side is shut behind them."""
    came = []
    with socket.create_connection(("127.0.0.1", port), timeout=seconds) as connection:
        connection.setsockopt(socket.IPPROTO_TCP, socket.TCP_NODELAY, 1)

        def listen():
            try:
                while piece := connection.recv(65536):
                    came.append(piece)
            except OSError as error:
                came.append(b" [then: %s]" % type(error).__name__.encode())

        listener = threading.Thread(target=listen)
        listener.start()
        try:
            for piece in pieces:
                connection.sendall(piece)
                if len(pieces) > 1:
                    time.sleep(0.0005)
            connection.shutdown(socket.SHUT_WR)
        except OSError:
            pass                                # closed by the program, which is seen in what comes
        listener.join()
    return b"".join(came)


def free_port():
    with socket.socket() as taken:
        taken.bind(("127.0.0.1", 0))
        return taken.getsockname()[1]
