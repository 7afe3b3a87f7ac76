#!/usr/bin/env python3
"""Serves a search box over a collection, and says its address.

    serve.py [PROGRAM [COLLECT [PAGE]]]

PROGRAM is `complete` at the top of the repository, or another one with its commands, as `reference/complete.py`. COLLECT leaves
the collection and its lists in a folder, as `rebuild.sh` says: here `collect.py`, for `examples/papers.tsv`. PAGE is the box,
here `index.html`; for documents of your own copy it, and change its first constants. In front of PROGRAM is nginx, or `front.py`
where there is none; and before the reference, which serves one connection after the other, so that one that nginx keeps would
hold up the next. Both servers listen on free ports of 127.0.0.1, and end with the script.
"""
import os
import pathlib
import shutil
import signal
import socket
import subprocess
import sys
import tempfile
import time

PAGE = pathlib.Path(__file__).resolve().parent
EXAMPLES = PAGE.parent
CONNECTIONS = 1_000_000    # the most that `serve` takes; it ends after them
SECONDS = 10               # within which a server must listen


def free_port():
    """A port that nobody listens at."""
    with socket.socket() as asked:
        asked.bind(("127.0.0.1", 0))
        return asked.getsockname()[1]


def wait_for(port, server):
    """Waits until someone listens at the port."""
    end = time.monotonic() + SECONDS
    while server.poll() is None and time.monotonic() < end:
        with socket.socket() as asked:
            if asked.connect_ex(("127.0.0.1", port)) == 0:
                return
        time.sleep(0.05)
    sys.exit(f"serve.py: nobody listens at 127.0.0.1:{port}")


def replaced(text, old, new):
    """The text with the one place of `old` changed."""
    if text.count(old) != 1:
        sys.exit(f"serve.py: nginx.conf has {old!r} {text.count(old)} times")
    return text.replace(old, new)


def lay_out(folder, program, collect, page, front, back):
    """Puts a build, the page, and nginx's configuration with these ports, into the folder."""
    folder.chmod(0o755)    # nginx's worker may be another user
    subprocess.run([EXAMPLES / "rebuild.sh", folder, collect, program], check=True)
    os.rename(folder / "next", folder / "current")
    (folder / "page").mkdir()
    shutil.copy(page, folder / "page/index.html")
    text = (PAGE / "nginx.conf").read_text()
    text = replaced(text, "listen 127.0.0.1:8080", f"listen 127.0.0.1:{front}")
    text = replaced(text, "server 127.0.0.1:8088", f"server 127.0.0.1:{back}")
    (folder / "nginx.conf").write_text(text)


def front_of(folder, program, front, back):
    """The words that start the server of the page."""
    if shutil.which("nginx") and not program.endswith(".py"):
        return ["nginx", "-p", folder, "-c", folder / "nginx.conf"]
    return [sys.executable, PAGE / "front.py", folder, str(front), str(back)]


def main():
    signal.signal(signal.SIGTERM, lambda number, frame: sys.exit())
    words = sys.argv[1:]
    program = words[0] if words else str(EXAMPLES.parent / "complete")
    collect = pathlib.Path(words[1] if len(words) > 1 else EXAMPLES / "collect.py").resolve()
    page = words[2] if len(words) > 2 else PAGE / "index.html"
    with tempfile.TemporaryDirectory(prefix="complete-page-") as name:
        folder, front, back = pathlib.Path(name), free_port(), free_port()
        lay_out(folder, program, collect, page, front, back)
        servers = []
        try:
            servers.append(subprocess.Popen([program, "serve", folder / "current/index", str(back), str(CONNECTIONS)]))
            wait_for(back, servers[-1])
            servers.append(subprocess.Popen(front_of(folder, program, front, back)))
            wait_for(front, servers[-1])
            print(f"http://127.0.0.1:{front}/", flush=True)
            while all(server.poll() is None for server in servers):
                time.sleep(0.2)
            sys.exit("serve.py: a server ended")
        except KeyboardInterrupt:
            pass
        finally:
            for server in servers:
                server.terminate()
                server.wait()


main()
