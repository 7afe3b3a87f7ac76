#!/usr/bin/env python3
"""Makes a picture of the page in a browser: screenshot.png in this folder, which the README shows.

    screenshot.py [PROGRAM [QUERY]]

PROGRAM is given to `serve.py`, and QUERY is what stands in the box. It needs Chromium.
"""
import os
import pathlib
import subprocess
import sys
import tempfile

PAGE = pathlib.Path(__file__).resolve().parent
PICTURE = PAGE / "screenshot.png"
QUERY = "q=index+se"
SIZE = "900,560"          # pixels
MILLISECONDS = 5000       # of the page's own time, within which it must have its answers


def shoot(address):
    """Has the browser open the address and keep what it shows."""
    with tempfile.TemporaryDirectory(prefix="complete-browser-") as profile:
        words = ["chromium", "--headless", "--disable-gpu", "--hide-scrollbars", f"--window-size={SIZE}", f"--user-data-dir={profile}",
                 f"--virtual-time-budget={MILLISECONDS}", f"--screenshot={PICTURE}"]
        if os.geteuid() == 0:
            words.append("--no-sandbox")    # the browser's own refuses root
        subprocess.run([*words, address], check=True, stderr=subprocess.DEVNULL)


def main():
    program = sys.argv[1:2]
    query = sys.argv[2] if len(sys.argv) > 2 else QUERY
    with subprocess.Popen([PAGE / "serve.py", *program], stdout=subprocess.PIPE, text=True) as server:
        try:
            address = next((line.strip() for line in server.stdout if line.startswith("http")), None)
            if address is None:
                sys.exit("screenshot.py: serve.py ended")
            shoot(f"{address}?{query}")
        finally:
            server.terminate()
    print(f"{PICTURE}: {PICTURE.stat().st_size} bytes")


main()
