"""An example: desks over HTTP, by Python's own server and sheetdesk_store.py. A screenful to start from, for a trusted network.

    python3 service.py [PORT [DATABASE]]            # 127.0.0.1:8040, desks.db
    curl --data-binary @calls.txt http://127.0.0.1:8040/tower

POST /NAME takes calls, a line each, makes them in one transaction and gives their answers, a line each. GET /NAME is the desk's
page, as ./sheetdesk --page writes it of the log; GET /NAME/log the log; GET /NAME/file the desk as --desk takes it; GET / the names.
It asks nobody who they are: put what does in front of it.
"""
import http.server
import os
import re
import shutil
import subprocess
import sys

import sheetdesk_file
import sheetdesk_store

MOST_BYTES = 1 << 20
HERE = os.path.dirname(os.path.abspath(__file__))
# In a checkout, or as it is installed.
COMMAND = os.environ.get("SHEETDESK") or next(
    filter(os.path.isfile, (os.path.join(HERE, "..", "sheetdesk"), os.path.join(HERE, "..", "..", "bin", "sheetdesk"))),
    shutil.which("sheetdesk"))


def page(log):
    """The page of a log; its text where the command isn't there."""
    if not COMMAND:
        return "text/plain", log.encode()
    made = subprocess.run([COMMAND, "--page"], input=log.encode(), stdout=subprocess.PIPE, check=True)
    return "text/html", made.stdout


class Service(http.server.BaseHTTPRequestHandler):
    def answer(self, status, kind, content):
        self.send_response(status)
        self.send_header("Content-Type", kind + "; charset=utf-8")
        self.send_header("Content-Length", str(len(content)))
        self.end_headers()
        self.wfile.write(content)

    def handled(self, method):
        """Answers by the path; what goes wrong is told."""
        name, _, part = self.path[1:].partition("/")
        try:
            if self.path != "/" and not re.fullmatch(r"[A-Za-z0-9._-]{1,64}", name):
                self.answer(404, "text/plain", b"a name has letters, digits, dots, dashes\n")
            else:
                self.answer(200, *method(self.server.store, name, part))
        except LookupError:
            self.answer(404, "text/plain", b"there is no such desk\n")
        except (sheetdesk_file.Fault, ValueError) as fault:
            self.answer(409, "text/plain", ("%s: %s\n" % (name, fault)).encode())
        except Exception as error:  # of the database, or of the command: nothing of this request was kept
            self.answer(503, "text/plain", ("%s: %s\n" % (name, error)).encode())

    def do_GET(self):
        self.handled(self.shown)

    def do_POST(self):
        self.handled(self.called)

    def shown(self, store, name, part):
        if self.path == "/":
            return "text/plain", "".join(known + "\n" for known in store.names()).encode()
        content = store.content(name)
        if content is None or part not in ("", "log", "file"):
            raise LookupError
        if part == "file":
            return "application/octet-stream", content
        return page(store.log(name)) if part == "" else ("text/plain", store.log(name).encode())

    def called(self, store, name, part):
        length = int(self.headers.get("Content-Length", 0))
        if part or not name or not 0 <= length <= MOST_BYTES:
            raise ValueError("POST /NAME takes up to %d bytes of calls" % MOST_BYTES)
        lines = self.rfile.read(length).decode("latin-1").split("\n")
        answers = store.call(name, lines[:-1] if lines[-1] == "" else lines)
        return "text/plain", "".join(line + "\n" for line in answers).encode()


def main():
    port = int(sys.argv[1]) if len(sys.argv) > 1 else 8040
    server = http.server.ThreadingHTTPServer(("127.0.0.1", port), Service)
    server.store = sheetdesk_store.Store(sys.argv[2] if len(sys.argv) > 2 else "desks.db")
    print("http://127.0.0.1:%d/" % server.server_port, flush=True)
    server.serve_forever()


if __name__ == "__main__":
    main()
