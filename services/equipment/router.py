#!/usr/bin/env python3
"""Stands in for a router that speaks X.25 over TCP (RFC 1613). It is at 127.0.0.2, and x25d at 127.0.0.1.

  router.py                  takes calls, and says back what it is told
  router.py NUMBER TEXT      calls a number of the network, says the text, and prints what it is told
"""
import collections
import contextlib
import socket
import socketserver
import struct
import sys

HERE, THERE, PORT = "127.0.0.2", "127.0.0.1", 1998
CALL, ACCEPTED, CLEAR, CLEAR_CONFIRMATION = 0x0B, 0x0F, 0x13, 0x17
INTERRUPT, INTERRUPT_CONFIRMATION, RESET, RESET_CONFIRMATION = 0x23, 0x27, 0x1B, 0x1F
SIZE, WINDOW, PATIENCE = 128, 2, 30


class Call:
    """A call on its connection, which numbers packets modulo 8."""

    def __init__(self, connection: socket.socket):
        self.connection, self.channel = connection, 1
        self.begin()

    def begin(self) -> None:
        self.sent, self.confirmed, self.taken, self.waiting = 0, 0, 0, collections.deque()

    def write(self, third: int, rest: bytes = b"") -> None:
        packet = bytes([0x10 + self.channel // 256, self.channel % 256, third]) + rest
        self.connection.sendall(struct.pack(">HH", 0, len(packet)) + packet)

    def exactly(self, count: int) -> bytes:
        octets = self.connection.recv(count, socket.MSG_WAITALL)
        if len(octets) < count:
            raise ConnectionError("the connection ended")
        return octets

    def read(self) -> bytes:
        packet = self.exactly(struct.unpack(">HH", self.exactly(4))[1])
        self.channel = packet[0] % 16 * 256 + packet[1]
        return packet

    def say(self, octets: bytes) -> None:
        """Sends these octets, as far as the window lets it."""
        self.waiting.extend(octets[at:at + SIZE] for at in range(0, len(octets), SIZE))
        while self.waiting and (self.sent - self.confirmed) % 8 < WINDOW:
            self.write(32 * self.taken + 2 * self.sent, self.waiting.popleft())
            self.sent = (self.sent + 1) % 8

    def messages(self):
        """What is said in each packet of data, until the call is cleared."""
        while True:
            packet = self.read()
            third = packet[2]
            if third % 2 == 0 or third % 32 == 1:           # data, or RR: both confirm what was sent
                self.confirmed = third // 32
            if third % 2 == 0:
                self.taken = (self.taken + 1) % 8
                self.write(32 * self.taken + 1)
                yield packet[3:]
            elif third == INTERRUPT:
                self.write(INTERRUPT_CONFIRMATION)
            elif third == RESET:
                self.begin()
                self.write(RESET_CONFIRMATION)
            elif third == CLEAR:
                self.write(CLEAR_CONFIRMATION)
                return
            self.say(b"")


class Router(socketserver.BaseRequestHandler):
    """Takes a call, and says back what it is told."""

    def handle(self) -> None:
        with contextlib.suppress(ConnectionError):
            call = Call(self.request)
            if call.read()[2] != CALL:
                return
            call.write(ACCEPTED)
            for octets in call.messages():
                call.say(octets)


class Server(socketserver.ThreadingTCPServer):
    allow_reuse_address, daemon_threads = True, True


def place(number: str, text: str) -> None:
    """Calls a number, says a line, and prints the line that comes back."""
    with socket.create_connection((THERE, PORT), PATIENCE, (HERE, 0)) as connection:
        call, said = Call(connection), f"{text}\r\n".encode()
        call.write(CALL, bytes([len(number)]) + bytes.fromhex(number + "0" * (len(number) % 2)) + b"\0")
        answer = call.read()
        if answer[2] != ACCEPTED:
            sys.exit(f"{number} cleared the call, with cause {answer[3]}")
        call.say(said)
        back = b""
        for octets in call.messages():
            back += octets
            if len(back) >= len(said):
                break
        print(back.decode().strip())
        call.write(CLEAR, bytes([0, 0]))
        while call.read()[2] != CLEAR_CONFIRMATION:
            pass


if sys.argv[1:]:
    place(*sys.argv[1:])
else:
    with Server((HERE, PORT), Router) as server, contextlib.suppress(KeyboardInterrupt):
        print(f"listening at {HERE} {PORT}", flush=True)
        server.serve_forever()
