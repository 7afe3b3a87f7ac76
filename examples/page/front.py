#!/usr/bin/env python3
"""Does what nginx does by nginx.conf, for trying the page where there is no nginx: slow, and for this machine alone.

    front.py FOLDER PORT BACK

The page is FOLDER/page. What asks /search is asked of 127.0.0.1:BACK, on a connection of its own.
"""
import http.client
import http.server
import pathlib
import re
import sys

LISTS = re.compile(r"/builds/[0-9TZ]+/(addresses|texts)\.txt")
SECONDS = 10    # within which the server must answer


class Front(http.server.SimpleHTTPRequestHandler):
    folder, back = None, None

    def do_GET(self):
        if self.path.partition("?")[0] == "/search":
            self.pass_on()
        else:
            super().do_GET()

    def send_head(self):
        """For GET and HEAD of a file: of the page's folder, or a list of a build."""
        self.directory = str(self.folder if LISTS.fullmatch(self.path) else self.folder / "page")
        return super().send_head()

    def pass_on(self):
        """Answers as the server does, with the name of the build that is served; 502 where it doesn't answer."""
        build = (self.folder / "current").resolve().name
        connection = http.client.HTTPConnection("127.0.0.1", self.back, timeout=SECONDS)
        try:
            connection.request("GET", self.path, headers={"Connection": "close"})
            response = connection.getresponse()
            status, body = response.status, response.read()
        except (OSError, http.client.HTTPException):
            status, body = 502, b""
        finally:
            connection.close()
        self.send_response(status)
        for name, value in (("Build", build), ("Content-Type", "application/json"), ("Content-Length", str(len(body)))):
            self.send_header(name, value)
        self.end_headers()
        self.wfile.write(body)

    def log_message(self, *_):
        pass


def main():
    folder, port, back = sys.argv[1:]
    Front.folder, Front.back = pathlib.Path(folder), int(back)
    http.server.ThreadingHTTPServer(("127.0.0.1", int(port)), Front).serve_forever()


main()
