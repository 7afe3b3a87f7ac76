#!/usr/bin/env python3
"""Merges documents into an index that replicas serve behind nginx, and says what became of the requests meanwhile. Run it by hand:

    bench/replicas.py PROGRAM [ROUNDS [NGINX]]

PROGRAM is crates/complete/out/complete. Three servers answer from one index file, that of some papers, behind nginx with
`examples/page/nginx.conf`, and eight clients ask without a pause. In each of ROUNDS (5) rounds further papers are merged over the
file that is served, and the servers are ended and started one after the other, as `docs/SERVING.md` says. Each response must be
200 and whole, with the documents of some round so far, and behind a round's last start with those of this round. It needs nginx.
"""
import http.client
import json
import pathlib
import shutil
import socket
import subprocess
import sys
import tempfile
import threading
import time

ROOT = pathlib.Path(__file__).resolve().parent.parent
PAPERS = (ROOT / "examples" / "papers.tsv").read_bytes().splitlines(keepends=True)
REPLICAS, CLIENTS, SECONDS = 3, 8, 10
# In it nginx learns that the connections which it kept to a server are gone.
PAUSE = 1
QUERIES = ["q=&h=0&c=0", "q=typ&f=author,year&h=100", "q=a&h=100&c=100", "q=index+se"]


def free_port():
    with socket.socket() as asked:
        asked.bind(("127.0.0.1", 0))
        return asked.getsockname()[1]


def run(*words):
    subprocess.run(words, check=True)


class Replica:
    """A server that is ended and started again at one port."""

    def __init__(self, program, index):
        self.words = [program, "serve", index, str(free_port()), "1000000"]
        self.start()

    def start(self):
        self.server = subprocess.Popen(self.words, stdout=subprocess.PIPE)
        if not self.server.stdout.readline().startswith(b"serving"):
            sys.exit("replicas.py: a server doesn't start")

    def end(self):
        self.server.terminate()
        self.server.wait()


class Clients:
    """Threads that ask at one port, each on a connection of its own, and note what is wrong."""

    def __init__(self, port, sizes):
        self.port, self.sizes, self.least, self.going = port, sizes, sizes[0], True
        self.asked, self.wrong = [0] * CLIENTS, []
        self.threads = [threading.Thread(target=self.ask, args=(number,)) for number in range(CLIENTS)]
        for thread in self.threads:
            thread.start()

    def ask(self, number):
        connection = http.client.HTTPConnection("127.0.0.1", self.port, timeout=SECONDS)
        while self.going:
            query, least = QUERIES[self.asked[number] % len(QUERIES)], self.least
            self.asked[number] += 1
            try:
                connection.request("GET", f"/search?{query}")
                response = connection.getresponse()
                body = response.read()
                hits = json.loads(body)["total"]["hits"]
                if query == QUERIES[0] and not (hits in self.sizes and hits >= least):
                    self.wrong.append((query, f"{hits} documents where {least} are served"))
            except (OSError, ValueError, KeyError, http.client.HTTPException) as error:
                self.wrong.append((query, repr(error)))
                connection.close()

    def end(self):
        self.going = False
        for thread in self.threads:
            thread.join()


def configured(program, ports, front):
    """The configuration of the example with these servers; one that answers one connection after the other is left no kept ones."""
    text = (ROOT / "examples" / "page" / "nginx.conf").read_text()
    servers = "\n".join(f"        server 127.0.0.1:{port} max_fails=0;" for port in ports)
    changes = [("        server 127.0.0.1:8088 max_fails=0;", servers), ("listen 127.0.0.1:8080", f"listen 127.0.0.1:{front}"),
               ("proxy_next_upstream error;", "proxy_next_upstream error timeout;")]
    if program.endswith(".py"):
        changes += [("keepalive 16;", ""), ("keepalive_timeout 50s;", "")]
    for old, new in changes:
        if text.count(old) != 1:
            sys.exit(f"replicas.py: nginx.conf has {old!r} {text.count(old)} times")
        text = text.replace(old, new)
    return text


def build(program, folder, lines):
    (folder / "papers.tsv").write_bytes(b"".join(lines))
    run(program, "build", folder / "papers.tsv", folder / "papers.index")
    return folder / "papers.index"


def rounds(program, folder, index, cuts, replicas, clients):
    for begin, end in zip(cuts, cuts[1:]):
        clients.sizes.append(end)
        run(program, "merge", index, build(program, folder, PAPERS[begin:end]), index)
        for replica in replicas:
            replica.end()
            replica.start()
            time.sleep(PAUSE)
        clients.least = end
        time.sleep(0.5)


def main():
    if not 2 <= len(sys.argv) <= 4 or not all(word.isdigit() for word in sys.argv[2:3]):
        sys.exit("usage: bench/replicas.py PROGRAM [ROUNDS [NGINX]]")
    program = str(pathlib.Path(sys.argv[1]).resolve())
    count = int(sys.argv[2]) if len(sys.argv) > 2 else 5
    nginx = sys.argv[3] if len(sys.argv) > 3 else shutil.which("nginx") or sys.exit("replicas.py: there is no nginx")
    cuts = [len(PAPERS) * (count + step) // (2 * count) for step in range(count + 1)]
    with tempfile.TemporaryDirectory() as name:
        folder, front = pathlib.Path(name), free_port()
        folder.chmod(0o755)    # nginx's worker may be another user
        (folder / "current").mkdir()
        (folder / "page").mkdir()
        index = build(program, folder, PAPERS[:cuts[0]]).rename(folder / "current" / "index")
        replicas = [Replica(program, index) for _ in range(REPLICAS)]
        (folder / "nginx.conf").write_text(configured(program, [replica.words[3] for replica in replicas], front))
        proxy = subprocess.Popen([nginx, "-p", folder, "-c", folder / "nginx.conf"], stderr=subprocess.DEVNULL)
        time.sleep(1)
        clients = Clients(front, [cuts[0]])
        try:
            rounds(program, folder, index, cuts, replicas, clients)
        finally:
            clients.end()
            proxy.terminate()
            proxy.wait()
            for replica in replicas:
                replica.end()
        again = sum(" 200 " in line and ", " in line for line in (folder / "access.log").read_text().splitlines())
        print(f"{sum(clients.asked)} requests, {again} of them asked again on another server; {len(clients.wrong)} wrong", *clients.wrong[:10], sep="\n")
        run(program, "build", ROOT / "examples" / "papers.tsv", folder / "whole")
        if clients.wrong or (folder / "whole").read_bytes() != index.read_bytes():
            sys.exit("replicas.py: failed")


main()
