#!/usr/bin/env python3
"""Takes a line, ends the call, and calls back: `call_back.py [PORT [CALLER]]`, at 127.0.0.1:8001 and through port 7100
if none are given."""
import contextlib
import socket
import socketserver
import sys
import time

PORT, CALLER = [int(word) for word in sys.argv[1:]] or [8001, 7100]


def call_back(wanted: str) -> None:
    with socket.create_connection(("127.0.0.1", CALLER)) as call:
        call.sendall(f"Here is the library. You asked for {wanted}.\r\nShall we keep it?\r\n".encode())
        print(call.makefile().readline().strip(), flush=True)


class Taker(socketserver.StreamRequestHandler):
    wanted = ""

    def handle(self) -> None:
        self.wfile.write(b"Which book? We call you back.\r\n")
        with contextlib.suppress(ConnectionError):
            self.wanted = self.rfile.readline().decode(errors="replace").strip()

    def finish(self) -> None:
        super().finish()
        self.request.close()                    # the terminal's call ends
        if self.wanted:
            time.sleep(2)
            call_back(self.wanted)


class Server(socketserver.ThreadingTCPServer):
    allow_reuse_address, daemon_threads = True, True


with Server(("127.0.0.1", PORT), Taker) as server, contextlib.suppress(KeyboardInterrupt):
    print(f"listening at 127.0.0.1 {PORT}", flush=True)
    server.serve_forever()
