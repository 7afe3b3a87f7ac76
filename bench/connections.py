#!/usr/bin/env python3
"""Tries `complete serve` with many clients at once over real sockets, and prints what was seen as rows of a table. Run it by hand:

    bench/connections.py PROGRAM [ROW..]

PROGRAM is crates/complete/out/complete; a ROW is the name of a function below that is marked as one, and without any all are
run. It serves `examples/papers.tsv` on a free port of 127.0.0.1. Short bodies are those of `q=typ`, long ones those of
`q=&h=100&f=author`. It needs ab (Debian's apache2-utils), wrk, nginx, for one row chromium, and Python 3.9, and takes some six
minutes, half of them waited.
"""
import pathlib
import re
import resource
import socket
import subprocess
import sys
import tempfile
import time

ROOT = pathlib.Path(__file__).resolve().parent.parent
SHORT, LONG = "/search?q=typ", "/search?q=&h=100&f=author"
ROWS = []


def row(function):
    ROWS.append(function)
    return function


def free_port():
    with socket.socket() as asked:
        asked.bind(("127.0.0.1", 0))
        return asked.getsockname()[1]


def head(target=SHORT, more=""):
    return f"GET {target} HTTP/1.1\r\nHost: x\r\n{more}\r\n".encode()


class Server:
    """The program over an index file, on a free port."""

    def __init__(self, program, index, conns=1_000_000, files=None):
        self.port = free_port()
        limit = (lambda: resource.setrlimit(resource.RLIMIT_NOFILE, (files, files))) if files else None
        self.running = subprocess.Popen([program, "serve", index, str(self.port), str(conns)], stdout=subprocess.PIPE, preexec_fn=limit)
        self.running.stdout.readline()

    def __enter__(self):
        return self

    def __exit__(self, *_):
        self.running.kill()
        self.running.wait()

    def memory(self):
        """The bytes of memory that it has."""
        return 1024 * int(re.search(r"VmRSS:\s+(\d+)", pathlib.Path(f"/proc/{self.running.pid}/status").read_text())[1])

    def connect(self, seconds=60, window=None):
        made = socket.socket()
        if window:
            made.setsockopt(socket.SOL_SOCKET, socket.SO_RCVBUF, window)
        made.settimeout(seconds)
        made.connect(("127.0.0.1", self.port))
        made.setsockopt(socket.IPPROTO_TCP, socket.TCP_NODELAY, 1)
        return made

    def files(self):
        """How many files it has open."""
        return len(list(pathlib.Path(f"/proc/{self.running.pid}/fd").iterdir()))

    def asked(self, conn=None, target=SHORT):
        """The seconds of one request, on a connection of its own where none is given."""
        begun = time.perf_counter()
        used = conn or self.connect()
        used.sendall(head(target))
        response(used)
        if not conn:
            used.close()
        return time.perf_counter() - begun


def response(conn):
    """The bytes of one response."""
    got = b""
    while b"\r\n\r\n" not in got:
        got += received(conn)
    front, _, body = got.partition(b"\r\n\r\n")
    length = int(re.search(rb"Content-Length: (\d+)", front)[1])
    while len(body) < length:
        body += received(conn)
    return front + b"\r\n\r\n" + body


def received(conn):
    more = conn.recv(1 << 20)
    if not more:
        raise ConnectionResetError("it was ended")
    return more


def to_end(conn):
    """The bytes up to the end, and whether that is a reset."""
    count = 0
    try:
        while more := conn.recv(1 << 20):
            count += len(more)
    except ConnectionResetError:
        return count, True
    return count, False


def told(seconds):
    return f"mean {sum(seconds) / len(seconds) * 1e3:.1f} ms, greatest {max(seconds) * 1e3:.1f} ms"


def ab(port, count, *flags, target=SHORT):
    said = subprocess.run(["ab", "-q", "-l", "-n", str(count), *flags, f"http://127.0.0.1:{port}{target}"], capture_output=True, text=True).stdout
    find = lambda pattern: (re.search(pattern, said) or [0, "0"])[1]
    failed = int(find(r"Failed requests: +(\d+)")) + int(find(r"Non-2xx responses: +(\d+)")) + count - int(find(r"Complete requests: +(\d+)"))
    return f"{failed} failed, {float(find(r'Requests per second: +([0-9.]+)')):,.0f} a second, greatest {find(r' 100% +([0-9]+)')} ms"


def wrk(port, clients, *flags):
    said = subprocess.run(["wrk", "-t2", f"-c{clients}", "-d5s", *flags, f"http://127.0.0.1:{port}{SHORT}"], capture_output=True, text=True).stdout
    errors = re.search(r"Socket errors: (.*)", said) or re.search(r"(Non-2xx.*)", said)
    return f"{float(re.search(r'Requests/sec: +([0-9.]+)', said)[1]):,.0f} a second, greatest {re.search(r'Latency +[^ ]+ +[^ ]+ +([^ ]+)', said)[1]}, {errors[1] if errors else 'no errors'}"


@row
def silent(program, index):
    with Server(program, index) as server:
        kept = [server.connect() for _ in range(200)]
        few = [server.asked() for _ in range(2)]
        took = few if max(few) > 1 else [server.asked() for _ in range(500)]
        yield "200 send nothing; another one asks", told(took)
        [it.close() for it in kept]


@row
def dripping(program, index):
    with Server(program, index) as server:
        slow, took = [server.connect() for _ in range(500)], []
        for byte in head()[:5]:
            for it in slow:
                it.sendall(bytes([byte]))
            until = time.perf_counter() + 1
            while time.perf_counter() < until:
                took.append(server.asked())
        yield "500 send a byte a second; another one asks", told(took)


@row
def in_turn(program, index):
    with Server(program, index) as server:
        kept, took, lost = [server.connect(20) for _ in range(1000)], [], 0
        for _ in range(4):
            for it in kept:
                try:
                    took.append(server.asked(it))
                except OSError:
                    lost += 1
        yield "1,000 keep their connections and ask in turn, four rounds", f"{len(took)} answered, {lost} not; {told(took)}; {server.memory() / 1e6:.1f} MB" if took else "none answered"


@row
def at_once(program, index):
    with Server(program, index) as server:
        yield "`wrk`, 100 kept connections at once", wrk(server.port, 100)
        yield "`wrk`, 64 kept connections", wrk(server.port, 64)
        yield "`wrk`, 64, a connection for each request", wrk(server.port, 64, "-H", "Connection: close")
        yield "`ab -c 64`, 50,000 requests, a connection for each", ab(server.port, 50_000, "-c", "64")
        yield "`ab -c 64 -k`, 50,000 requests", ab(server.port, 50_000, "-c", "64", "-k")


CONF = """worker_processes 1; daemon off; pid {d}/pid; error_log {d}/errors warn; worker_rlimit_nofile 8192;
events {{ worker_connections 4096; }}
http {{ access_log off; client_body_temp_path {d}/b; proxy_temp_path {d}/p; fastcgi_temp_path {d}/f; uwsgi_temp_path {d}/u; scgi_temp_path {d}/s;
 upstream search {{ server 127.0.0.1:{back} max_fails=0; {keep} }}
 server {{ listen 127.0.0.1:{front} backlog=4096; location /search {{ proxy_pass http://search; proxy_http_version 1.1;
  proxy_set_header Connection {connection}; proxy_set_header Host x; proxy_pass_request_headers off; proxy_connect_timeout 3s; proxy_next_upstream error; }} }} }}"""


@row
def behind_nginx(program, index):
    for keep, connection in (("keepalive 16;", '""'), ("", "close")):
        with Server(program, index) as server, tempfile.TemporaryDirectory() as folder:
            pathlib.Path(folder).chmod(0o777)
            front = free_port()
            pathlib.Path(folder, "conf").write_text(CONF.format(d=folder, back=server.port, front=front, keep=keep, connection=connection))
            nginx = subprocess.Popen(["nginx", "-p", folder, "-c", f"{folder}/conf", "-e", f"{folder}/errors"])
            time.sleep(0.7)
            for flags in (("-c", "16"), ("-c", "600")):
                yield f"nginx {'with `' + keep[:-1] + '`' if keep else 'without `keepalive`'}, `ab {' '.join(flags)}`, 30,000 requests", ab(front, 30_000, *flags)
            nginx.terminate()
            nginx.wait()


@row
def few_files(program, index):
    with Server(program, index, files=16) as server:
        begun, kept = time.perf_counter(), []
        for _ in range(40):
            kept.append(server.connect())
            kept[-1].sendall(head())
        done, lost = 0, 0
        for it in kept:
            try:
                response(it)
                done += 1
            except OSError:
                lost += 1
        yield "16 open files (`ulimit -n 16`); 40 come at once, ask and keep theirs open", f"{done} answered, {lost} not, within {time.perf_counter() - begun:.1f} s"


@row
def million(program, index):
    with Server(program, index) as server:
        ab(server.port, 20_000, "-c", "64")
        before, begun = server.memory(), time.perf_counter()
        said = [ab(server.port, 190_000, "-c", "64") for _ in range(5)]
        failed = sum(int(it.split()[0]) for it in said)
        yield "950,000 connections, one request each (`ab -c 64`)", f"{failed} failed, {time.perf_counter() - begun:.0f} s; it grew by {(server.memory() - before) / 1e6:.1f} MB"


@row
def browser(program, index):
    with Server(program, index) as server, tempfile.TemporaryDirectory() as folder:
        page = pathlib.Path(folder, "page.html")
        page.write_text(f"""<body><script>
const begun = performance.now(), times = [], one = n => fetch("http://127.0.0.1:{server.port}/search?q=a" + n, {{mode: "no-cors"}}).then(() => times.push(performance.now() - begun));
Promise.all([...Array(30).keys()].map(one)).then(() => {{ document.body.textContent = "DONE " + times.length + " " + Math.max(...times).toFixed(1); }});
</script></body>""")
        words = ["chromium", "--headless", "--no-sandbox", "--disable-gpu", f"--user-data-dir={folder}/data", "--timeout=20000", "--virtual-time-budget=20000", "--dump-dom", f"file://{page}"]
        try:
            said = re.search(r"DONE (\d+) ([\d.]+)", subprocess.run(words, capture_output=True, text=True, timeout=90).stdout)
            yield "Chromium fetches 30 at once over its six connections", f"{said[1]} answered, the last after {said[2]} ms" if said else "not seen"
        except (OSError, subprocess.TimeoutExpired) as error:
            yield "Chromium", f"not run: {error}"


@row
def slow_readers(program, index):
    with tempfile.TemporaryDirectory() as folder:
        lines = "".join(f"{'x' * 100_000} {number}\t\ttyp\n" for number in range(100))
        pathlib.Path(folder, "long.tsv").write_text(lines)
        subprocess.run([program, "build", f"{folder}/long.tsv", f"{folder}/long.index"], check=True)
        with Server(program, f"{folder}/long.index") as server:
            with server.connect(window=65536) as conn:
                conn.sendall(head("/search?q=typ&h=100", "Connection: close\r\n"))
                begun, count = time.perf_counter(), 0
                try:
                    while more := conn.recv(50_000):
                        count += len(more)
                        time.sleep(max(0, count / 500_000 - (time.perf_counter() - begun)))
                    seen = f"{count / 1e6:.1f} MB, whole"
                except OSError as error:
                    seen = f"{count / 1e6:.1f} MB, then {error}"
                yield "a response of 10 MB to one that reads 500 KB a second", f"{seen}, within {time.perf_counter() - begun:.1f} s"
            before, begun = server.files(), time.perf_counter()
            with server.connect(window=65536) as conn:
                conn.sendall(head("/search?q=typ&h=100"))
                time.sleep(1)
                yield "the same to one that doesn't read; another one asks", told([server.asked(target="/search?q=nothing") for _ in range(100)])
                while server.files() > before and time.perf_counter() < begun + 60:
                    time.sleep(0.1)
                yield "the one that doesn't read", f"ended after {time.perf_counter() - begun:.1f} s"


@row
def ends(program, index):
    with Server(program, index) as server:
        quiet, half, idle = server.connect(90), server.connect(90), server.connect(90)
        half.sendall(head()[:20])
        server.asked(idle)
        begun = time.perf_counter()
        for conn, what in ((quiet, "it sends nothing"), (half, "it sends half a head"), (idle, "it sends nothing behind a response")):
            to_end(conn)
            yield what, f"ended after {time.perf_counter() - begun:.1f} s"


@row
def closing(program, index):
    with Server(program, index) as server:
        for size in (1000, 200 << 10, 1 << 20):
            with server.connect() as conn:
                try:
                    conn.sendall(head(more="Connection: close\r\n") + b"x" * size)
                except OSError:
                    pass
                count, is_reset = to_end(conn)
            yield f"a head that asks for the end, and {size:,} bytes behind it", f"{count:,} bytes, {'then a reset' if is_reset else 'then the end'}"
        with server.connect() as conn:
            conn.sendall(head() * 1500)
            conn.shutdown(socket.SHUT_WR)
            yield "1,500 heads at once, then the end of its side", f"{to_end(conn)[0]:,} bytes of responses"


def main():
    if len(sys.argv) < 2 or sys.argv[1].startswith("-"):
        sys.exit("usage: bench/connections.py PROGRAM [ROW..]")
    with tempfile.TemporaryDirectory() as folder:
        index = f"{folder}/papers.index"
        subprocess.run([sys.argv[1], "build", str(ROOT / "examples/papers.tsv"), index], check=True)
        print("| what clients do | what was seen |\n|---|---|")
        for function in ROWS:
            if sys.argv[2:] and function.__name__ not in sys.argv[2:]:
                continue
            try:
                for what, seen in function(sys.argv[1], index):
                    print(f"| {what} | {seen} |", flush=True)
            except OSError as error:
                print(f"| {function.__name__} | {error} |", flush=True)


resource.setrlimit(resource.RLIMIT_NOFILE, (resource.getrlimit(resource.RLIMIT_NOFILE)[1],) * 2)
main()
