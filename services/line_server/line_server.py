#!/usr/bin/env python3
"""A library that is asked by lines: `line_server.py [PORT]`, at 127.0.0.1:8001 if no port is given."""
import contextlib
import socketserver
import sys

BOOKS = {"moby dick": "shelf 4", "emma": "shelf 7", "walden": "lent until Friday"}


class Reader(socketserver.StreamRequestHandler):
    def answer(self, text: str) -> None:
        self.wfile.write(f"{text}\r\n".encode())

    def handle(self) -> None:
        hello = self.rfile.readline().decode(errors="replace").split()
        if hello[:1] != ["CALL"]:       # CALL, the caller's address, the called one, user data
            return
        self.answer(f"Welcome, {hello[1]}. Which book? An empty line ends.")
        for line in self.rfile:
            title = line.decode(errors="replace").strip().lower()
            if not title:
                break
            self.answer(f"{title}: {BOOKS.get(title, 'not here')}")
        self.answer("Good bye.")


class Server(socketserver.ThreadingTCPServer):
    allow_reuse_address, daemon_threads = True, True


PORT = int(sys.argv[1]) if sys.argv[1:] else 8001
with Server(("127.0.0.1", PORT), Reader) as server, contextlib.suppress(KeyboardInterrupt):
    print(f"listening at 127.0.0.1 {PORT}", flush=True)
    server.serve_forever()
