#!/usr/bin/env python3
"""X.25 over TCP (RFC 1613) with a packet layer of its own, as equipment of others has it: one call, one connection.

  tools/xot_peer.py          tries it against itself over loopback, and prints a line for each try; the status is 1 if one fails

A module for tests: `call` places a call over a new connection, `Listener` takes calls, and both give a `Call`, which
sends and reads messages, interrupts, resets and clears. A call that waits longer than PATIENCE has failed.
"""
import hashlib
import socket
import struct
import sys
import threading

import repository
from serving import Failed

PATIENCE = 30.0
CALL, ACCEPTED, CLEAR, CLEAR_CONFIRMATION = 0x0B, 0x0F, 0x13, 0x17
INTERRUPT, INTERRUPT_CONFIRMATION, RESET, RESET_CONFIRMATION = 0x23, 0x27, 0x1B, 0x1F
RR, RNR = 0x01, 0x05


class Cleared(Failed):
    """The call was cleared, with this cause and diagnostic."""

    def __init__(self, cause: int, diagnostic: int):
        super().__init__(f"cleared {cause} {diagnostic}")
        self.cause, self.diagnostic = cause, diagnostic


class Stream:
    """Packets over a connection: version 0, the length, and the packet (RFC 1613, section 3)."""

    def __init__(self, connection: socket.socket):
        self.connection = connection
        connection.settimeout(PATIENCE)
        connection.setsockopt(socket.IPPROTO_TCP, socket.TCP_NODELAY, 1)

    def write(self, packet: bytes) -> None:
        self.connection.sendall(struct.pack(">HH", 0, len(packet)) + packet)

    def exactly(self, count: int) -> bytes:
        octets = b""
        while len(octets) < count:
            more = self.connection.recv(count - len(octets))
            if not more:
                raise Failed("the connection ended")
            octets += more
        return octets

    def read(self) -> bytes:
        version, length = struct.unpack(">HH", self.exactly(4))
        if version != 0 or length < 3:
            raise Failed(f"header {version} {length}")
        return self.exactly(length)

    def is_ended(self) -> bool:
        """Whether the other side ends the connection, with nothing more before that."""
        try:
            return self.connection.recv(1) == b""
        except (ConnectionError, TimeoutError):
            return True


def facilities(size: int, window: int) -> bytes:
    code = size.bit_length() - 1
    return bytes([0x42, code, code, 0x43, window, window])


def address_part(called: str, calling: str) -> bytes:
    digits = called + calling + "0" * ((len(called) + len(calling)) % 2)
    return bytes([16 * len(calling) + len(called)]) + bytes.fromhex(digits)


def split_block(block: bytes) -> tuple[str, str, bytes, bytes]:
    """The called and the calling address, the facilities and the user data of a call block."""
    if not block:
        return "", "", b"", b""
    called, calling = block[0] % 16, block[0] // 16
    end = 1 + (called + calling + 1) // 2
    digits = block[1:end].hex()
    length = block[end] if end < len(block) else 0
    rest = block[end + 1 :]
    return digits[:called], digits[called : called + calling], rest[:length], rest[length:]


def flow_asked(asked: bytes, size: int, window: int) -> tuple[int, int]:
    """The size and window of a facility field, of two directions the smaller; what is not asked for stays."""
    at = 0
    while at < len(asked):
        code = asked[at]
        width = 1 + (code >> 6) if code < 0xC0 else 1 + asked[at + 1]
        value = asked[at + 1 : at + 1 + width]
        if code == 0x42:
            size = 1 << min(value)
        if code == 0x43:
            window = min(value)
        at += 1 + width
    return size, window


class Call:
    """One call in data transfer (X.25 4.3 and 4.4): windows, M bits, interrupts, resets."""

    def __init__(self, stream: Stream, extended: bool, channel: int, size: int, window: int):
        self.stream, self.extended, self.channel = stream, extended, channel
        self.modulus = 128 if extended else 8
        self.size, self.window = size, window
        self.called, self.calling = "", ""
        self.asked = b""
        self.user_data = b""
        self.messages: list[tuple[bool, bytes]] = []
        self.interrupts: list[bytes] = []
        self.resets: list[tuple[int, int]] = []
        self.waits_for: int | None = None
        self.begin()

    def begin(self) -> None:
        """P(S) and P(R) are 0, and what was joined is forgotten."""
        self.sent = self.acknowledged = self.taken = 0
        self.is_ready = True
        self.joined = b""

    def write(self, third: int, rest: bytes = b"", qualified: bool = False) -> None:
        first = 0x80 * qualified + (0x20 if self.extended else 0x10) + self.channel // 256
        self.stream.write(bytes([first, self.channel % 256, third]) + rest)

    def write_flow(self, code: int) -> None:
        if self.extended:
            self.write(code, bytes([2 * self.taken]))
        else:
            self.write(32 * self.taken + code)

    def send(self, message: bytes, qualified: bool = False) -> None:
        """Sends a message, in packets with M but for the last; waits for the window."""
        pieces = [message[at : at + self.size] for at in range(0, len(message), self.size)] or [b""]
        for number, piece in enumerate(pieces):
            while (self.sent - self.acknowledged) % self.modulus >= self.window or not self.is_ready:
                self.step()
            more = number + 1 < len(pieces)
            if self.extended:
                self.write(2 * self.sent, bytes([2 * self.taken + more]) + piece, qualified)
            else:
                self.write(32 * self.taken + 16 * more + 2 * self.sent, piece, qualified)
            self.sent = (self.sent + 1) % self.modulus

    def read(self) -> bytes:
        """The next message."""
        while not self.messages:
            self.step()
        return self.messages.pop(0)[1]

    def read_interrupt(self) -> bytes:
        while not self.interrupts:
            self.step()
        return self.interrupts.pop(0)

    def interrupt(self, octets: bytes) -> None:
        """Sends an interrupt, and waits until it is confirmed."""
        self.write(INTERRUPT, octets)
        self.wait_for(INTERRUPT_CONFIRMATION)

    def reset(self, cause: int = 0, diagnostic: int = 0) -> None:
        """Resets the call, and waits until that is confirmed."""
        self.write(RESET, bytes([cause, diagnostic]))
        self.wait_for(RESET_CONFIRMATION)
        self.begin()

    def wait_for(self, kind: int) -> None:
        self.waits_for = kind
        while self.waits_for is not None:
            self.step()

    def clear(self, cause: int = 0, diagnostic: int = 0, block: bytes = b"") -> None:
        """Clears the call, drops what comes until that is confirmed, and closes."""
        self.write(CLEAR, bytes([cause, diagnostic]) + block)
        while self.stream.read()[2] not in (CLEAR, CLEAR_CONFIRMATION):
            pass
        self.stream.connection.close()

    def step(self) -> None:
        """Takes the next packet."""
        packet = self.stream.read()
        third, rest = packet[2], packet[3:]
        if third % 2 == 0:
            self.take_data(packet)
        elif third == CLEAR:
            self.write(CLEAR_CONFIRMATION)
            raise Cleared(rest[0], rest[1] if len(rest) > 1 else 0)
        elif third == INTERRUPT:
            self.interrupts.append(rest)
            self.write(INTERRUPT_CONFIRMATION)
        elif third == RESET:
            self.resets.append((rest[0], rest[1] if len(rest) > 1 else 0))
            self.begin()
            self.write(RESET_CONFIRMATION)
        elif third in (INTERRUPT_CONFIRMATION, RESET_CONFIRMATION):
            if third != self.waits_for:
                raise Failed(f"packet {packet.hex()}")
            self.waits_for = None
        elif (third if self.extended else third % 32) in (RR, RNR):
            self.is_ready = third % 32 == RR
            self.acknowledge(rest[0] // 2 if self.extended else third // 32)
        else:
            raise Failed(f"packet {packet.hex()}")

    def acknowledge(self, number: int) -> None:
        if (number - self.acknowledged) % self.modulus > (self.sent - self.acknowledged) % self.modulus:
            raise Failed(f"P(R) {number} of {self.acknowledged} to {self.sent}")
        self.acknowledged = number

    def take_data(self, packet: bytes) -> None:
        third = packet[2]
        if self.extended:
            number, receive, more, octets = third // 2, packet[3] // 2, packet[3] % 2, packet[4:]
        else:
            number, receive, more, octets = third // 2 % 8, third // 32, third // 16 % 2, packet[3:]
        if number != self.taken or len(octets) > self.size:
            raise Failed(f"P(S) {number} where {self.taken} is next, {len(octets)} octets")
        self.acknowledge(receive)
        self.taken = (self.taken + 1) % self.modulus
        self.joined += octets
        if not more:
            self.messages.append((packet[0] >= 0x80, self.joined))
            self.joined = b""
        self.write_flow(RR)


def call(port: int, called: str, calling: str = "", *, extended: bool = False, size: int = 128, window: int = 2,
         asked: bytes | None = None, user_data: bytes = b"", channel: int = 1) -> Call:
    """Places a call over a new connection to a port of this machine. `Cleared` comes if it is refused."""
    stream = Stream(socket.create_connection(("127.0.0.1", port), timeout=PATIENCE))
    placed = Call(stream, extended, channel, size, window)
    field = facilities(size, window) if asked is None else asked
    placed.write(CALL, address_part(called, calling) + bytes([len(field)]) + field + user_data)
    packet = stream.read()
    if packet[2] == CLEAR:
        placed.write(CLEAR_CONFIRMATION)
        raise Cleared(packet[3], packet[4] if len(packet) > 4 else 0)
    if packet[2] != ACCEPTED:
        raise Failed(f"packet {packet.hex()}")
    placed.asked = split_block(packet[3:])[2]
    placed.size, placed.window = flow_asked(placed.asked, size, window)
    return placed


class Listener:
    """A port that takes calls."""

    def __init__(self) -> None:
        self.socket = socket.create_server(("127.0.0.1", 0))
        self.socket.settimeout(PATIENCE)
        self.port = self.socket.getsockname()[1]

    def __enter__(self):
        return self

    def __exit__(self, *_):
        self.socket.close()

    def take(self, *, size: int = 1024, window: int = 127, cause: int | None = None,
             answered: bytes | None = None) -> Call | None:
        """Takes the next call, with at most this size and window, or with these facilities; with a cause, refuses it."""
        stream = Stream(self.socket.accept()[0])
        packet = stream.read()
        extended = packet[0] // 16 % 4 == 2
        taken = Call(stream, extended, 256 * (packet[0] % 16) + packet[1], 128, 2)
        if packet[2] != CALL:
            raise Failed(f"packet {packet.hex()}")
        taken.called, taken.calling, taken.asked, taken.user_data = split_block(packet[3:])
        if cause is not None:
            taken.clear(cause)
            return None
        most_size, most_window = flow_asked(taken.asked, 128, 2)
        taken.size, taken.window = min(size, most_size), min(window, most_window)
        field = facilities(taken.size, taken.window) if answered is None else answered
        taken.write(ACCEPTED, bytes([0, len(field)]) + field)
        return taken


# ---- it is tried against itself


def digest(octets: bytes) -> str:
    return hashlib.sha256(octets).hexdigest()


def talk(extended: bool, size: int, window: int) -> None:
    """100,000 octets each way, an interrupt, a reset and a clear of each side."""
    listener = Listener()
    faults: list[BaseException] = []
    much = bytes(n * n % 251 for n in range(100_000))

    def answer() -> None:
        try:
            taken = listener.take()
            taken.interrupt(b"!")
            taken.send(taken.read())
            taken.reset(0, 7)
            taken.send(b"after")
            taken.read()
            raise Failed("the call goes on")
        except Cleared as cleared:
            if (cleared.cause, cleared.diagnostic) != (0, 5):
                faults.append(cleared)
        except BaseException as fault:
            faults.append(fault)

    thread = threading.Thread(target=answer, daemon=True)
    thread.start()
    placed = call(listener.port, "2001", "1001", extended=extended, size=size, window=window)
    if placed.read_interrupt() != b"!":
        raise Failed("interrupt")
    placed.send(much)
    if digest(placed.read()) != digest(much):
        raise Failed("octets differ")
    if placed.read() != b"after" or placed.resets != [(0, 7)]:
        raise Failed("reset")
    placed.clear(0, 5)
    thread.join(PATIENCE)
    if faults or thread.is_alive():
        raise Failed(str(faults))


def refuse() -> None:
    """A call is refused with a cause, and the connection ends."""
    listener = Listener()
    thread = threading.Thread(target=lambda: listener.take(cause=5), daemon=True)
    thread.start()
    try:
        call(listener.port, "2001")
    except Cleared as cleared:
        if cleared.cause != 5:
            raise Failed(str(cleared)) from cleared
        return
    raise Failed("the call was taken")


def main() -> int:
    repository.words_of(__doc__)
    failed = 0
    tries = [("refused", refuse)]
    for extended, size, window in ((False, 128, 2), (False, 256, 7), (True, 512, 2), (True, 1024, 7), (True, 128, 20)):
        name = f"modulo {128 if extended else 8}, size {size}, window {window}"
        tries.append((name, lambda e=extended, s=size, w=window: talk(e, s, w)))
    for name, attempt in tries:
        try:
            attempt()
            print(f"{name}: ok")
        except (Failed, Cleared, OSError) as fault:
            failed = 1
            print(f"{name}: {fault}")
    return failed


if __name__ == "__main__":
    sys.exit(main())
