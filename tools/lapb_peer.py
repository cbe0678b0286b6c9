#!/usr/bin/env python3
"""An end of a line by ISO 7776, over datagrams: each datagram is one frame, without its flags and its check sequence.

  tools/lapb_peer.py         tries a DTE against a DCE over loopback, and prints a line for each try; the status is 1 if one fails

A module for tests: a `Link` is one end, which a thread of its own serves, with a packet layer of modulo 8 on it
(restarts, calls, data, interrupts, resets and clears). `lose` and `lose_heard` say which of the frames get lost. A call
that waits longer than PATIENCE has failed.
"""
import contextlib
import hashlib
import socket
import sys
import threading
import time

import repository
from serving import Failed

PATIENCE = 30.0

# How long an answer is waited for, in seconds, and how often a frame is sent again.
T1, N2 = 0.3, 10

SABM, DISC, DM, UA, FRMR = 0x2F, 0x43, 0x0F, 0x63, 0x87
RR, RNR, REJ = 0x01, 0x05, 0x09
POLL = 0x10

CALL, ACCEPTED, CLEAR, CLEAR_CONFIRMATION = 0x0B, 0x0F, 0x13, 0x17
INTERRUPT, INTERRUPT_CONFIRMATION, RESET, RESET_CONFIRMATION = 0x23, 0x27, 0x1B, 0x1F
RESTART, RESTART_CONFIRMATION = 0xFB, 0xFF


class Cleared(Failed):
    """The call was cleared, with this cause and diagnostic."""

    def __init__(self, cause: int, diagnostic: int):
        super().__init__(f"cleared {cause} {diagnostic}")
        self.cause, self.diagnostic = cause, diagnostic


def never(number: int) -> bool:
    return False


class Frames:
    """Frames over datagrams, each `copies` times, of which some get lost: `lose` and `lose_heard` say which, counted from
    1."""

    def __init__(self) -> None:
        self.socket = socket.socket(socket.AF_INET, socket.SOCK_DGRAM)
        self.socket.bind(("127.0.0.1", 0))
        self.socket.settimeout(0.02)
        self.port = self.socket.getsockname()[1]
        self.partner: int | None = None
        self.lose = self.lose_heard = never
        self.sent = self.heard = 0
        self.copies = 1

    def send(self, frame: bytes) -> None:
        self.sent += 1
        if not self.lose(self.sent):
            with contextlib.suppress(ConnectionError):
                for _ in range(self.copies):
                    self.socket.sendto(frame, ("127.0.0.1", self.partner))

    def next(self) -> bytes | None:
        """The next frame, if one comes soon and is not lost."""
        try:
            frame, (_, port) = self.socket.recvfrom(4096)
        except (TimeoutError, ConnectionError):
            return None
        self.heard += 1
        return frame if port == self.partner and not self.lose_heard(self.heard) else None


class Link:
    """One end of a link (ISO 7776, 5.3 to 5.7), and the calls on it. `k` frames may wait for an acknowledgement."""

    def __init__(self, is_dte: bool = True, k: int = 7):
        self.frames, self.is_dte, self.k = Frames(), is_dte, k
        self.port = self.frames.port
        self.changed = threading.Condition()
        self.is_up = self.is_ended = False
        self.rejected: list[bytes] = []
        self.fault: Failed | None = None
        self.begin()
        self.station = Station(self)
        self.thread = threading.Thread(target=self.serve, daemon=True)

    def begin(self) -> None:
        """V(S), V(A) and V(R) are 0, and nothing waits."""
        self.next = self.acknowledged = self.expected = 0
        self.waiting: list[bytes] = []
        self.is_polling = self.is_rejecting = self.is_busy = self.owes = False
        self.timer: float | None = None
        self.tries = 0

    def __enter__(self):
        return self

    def __exit__(self, *_):
        self.is_ended = True
        if self.thread.is_alive():
            self.thread.join(PATIENCE)
        self.frames.socket.close()

    def start(self, partner: int) -> None:
        """Begins: the DTE sets the link up, and the DCE waits for that."""
        self.frames.partner = partner
        self.thread.start()
        if self.is_dte:
            with self.changed:
                self.set_up()

    # ---- frames that go out

    def command(self, control: int, info: bytes = b"") -> None:
        self.frames.send(bytes([0x01 if self.is_dte else 0x03, control]) + info)

    def response(self, control: int, info: bytes = b"") -> None:
        self.frames.send(bytes([0x03 if self.is_dte else 0x01, control]) + info)

    def set_up(self) -> None:
        """Sends SABM, and again until UA comes (5.3.1)."""
        self.is_up = False
        self.begin()
        self.station.line_lost()
        self.command(SABM + POLL)
        self.timer = time.monotonic() + T1

    def send(self, packet: bytes) -> None:
        """Sends a packet in an I frame, once the window lets it go."""
        self.waiting.append(packet)
        self.go_on()

    def go_on(self) -> None:
        """Sends the I frames that may go. What comes is acknowledged by them, or else by RR."""
        while self.is_up and not self.is_polling and not self.is_busy:
            place = (self.next - self.acknowledged) % 8
            if place >= min(len(self.waiting), self.k):
                break
            self.command(32 * self.expected + 2 * self.next, self.waiting[place])
            self.next = (self.next + 1) % 8
            self.owes = False
            self.timer = self.timer or time.monotonic() + T1
        if self.owes and self.is_up:
            self.response(32 * self.expected + RR)
            self.owes = False

    # ---- frames that come

    def serve(self) -> None:
        while not self.is_ended:
            frame = self.frames.next()
            with self.changed:
                try:
                    self.turn(frame)
                except Failed as fault:
                    self.fault, self.is_ended = fault, True
                self.changed.notify_all()

    def turn(self, frame: bytes | None) -> None:
        if frame is not None and len(frame) >= 2:
            self.take(frame)
        self.go_on()
        if self.timer and time.monotonic() >= self.timer:
            self.expire()

    def take(self, frame: bytes) -> None:
        address, control, info = frame[0], frame[1], frame[2:]
        is_command = address == (0x03 if self.is_dte else 0x01)
        if control % 4 == 3:
            self.take_unnumbered(control - control // 16 % 2 * 16, control & POLL, info)
        elif self.is_up:
            self.take_numbered(control, control & POLL, is_command, info)
        elif is_command and control & POLL:
            self.response(DM + POLL)

    def take_unnumbered(self, control: int, bit: int, info: bytes) -> None:
        if control == SABM:
            self.response(UA + bit)
            self.begin()
            self.station.line_lost()
            self.come_up()
        elif control == UA and not self.is_up and self.is_dte:
            self.begin()
            self.come_up()
        elif control == DISC:
            self.response(UA + bit if self.is_up else DM + bit)
            self.is_up = False
            self.station.line_lost()
        elif control == FRMR:
            self.rejected.append(info)
            self.set_up()
        elif control == DM and self.is_dte and (self.is_up or not bit):
            self.set_up()

    def come_up(self) -> None:
        self.is_up = True
        self.station.line_up()

    def take_numbered(self, control: int, bit: int, is_command: bool, info: bytes) -> None:
        self.acknowledge(control // 32)
        if control % 2 == 0:
            self.take_information(control // 2 % 8, bit, info)
            return
        code = control % 16
        self.is_busy = code == RNR
        if bit and not is_command and self.is_polling:
            self.is_polling, self.tries, self.timer = False, 0, None
            self.next = self.acknowledged
        if code == REJ and not self.is_polling:
            self.next = self.acknowledged
        if bit and is_command:
            self.response(32 * self.expected + RR + POLL)
            self.owes = False

    def acknowledge(self, number: int) -> None:
        """N(R) acknowledges the I frames below it (5.4.3)."""
        count = (number - self.acknowledged) % 8
        if count > len(self.waiting):
            raise Failed(f"N(R) {number} of {self.acknowledged} and {len(self.waiting)} frames")
        if (self.next - self.acknowledged) % 8 < count:
            self.next = number
        del self.waiting[:count]
        self.acknowledged = number
        if count:
            self.timer = time.monotonic() + T1 if self.next != self.acknowledged or self.is_polling else None

    def take_information(self, number: int, bit: int, info: bytes) -> None:
        if number == self.expected:
            self.expected = (self.expected + 1) % 8
            self.is_rejecting = False
            self.owes = True
            self.station.take(info)
            if bit:
                self.response(32 * self.expected + RR + POLL)
                self.owes = False
        elif not self.is_rejecting:
            self.is_rejecting = True
            self.response(32 * self.expected + REJ + bit)
        elif bit:
            self.response(32 * self.expected + RR + POLL)

    def expire(self) -> None:
        """T1 has run out: SABM or a poll goes again, and after N2 of them the link is set up anew (5.7.1)."""
        self.tries += 1
        if not self.is_up and self.is_dte:
            tries = self.tries
            self.set_up()
            self.tries = tries
        elif self.is_up and self.tries > N2:
            self.set_up()
        elif self.is_up:
            self.is_polling = True
            self.command(32 * self.expected + RR + POLL)
            self.timer = time.monotonic() + T1

    # ---- what a test asks for

    def wait(self, holds, what: str):
        """Waits until something is true, and gives it."""
        limit = time.monotonic() + PATIENCE
        with self.changed:
            while not (found := holds()):
                if self.fault:
                    raise self.fault
                if not self.changed.wait(limit - time.monotonic()):
                    raise Failed(f"{what} did not come within {PATIENCE:.0f} seconds")
            return found

    def wait_ready(self) -> None:
        self.wait(lambda: self.station.is_ready, "the restart of the line")

    def call(self, called: str, calling: str = "", user_data: bytes = b"") -> "Call":
        """Places a call, and waits for its answer. `Cleared` comes if it is refused."""
        with self.changed:
            call = self.station.place(called, calling, user_data)
        self.wait(lambda: call.is_connected or call.cleared, "the answer to a call")
        call.expect_standing()
        return call

    def take_call(self) -> "Call":
        """Takes the next call that comes."""
        self.wait(lambda: self.station.incoming, "a call")
        with self.changed:
            call = self.station.incoming.pop(0)
            call.accept()
        return call


class Station:
    """The packet layer of a line (X.25 3 and 4), modulo 8, without facilities."""

    def __init__(self, link: Link, channels: int = 8):
        self.link, self.channels = link, channels
        self.calls: dict[int, Call] = {}
        self.incoming: list[Call] = []
        self.is_ready = False

    def line_lost(self) -> None:
        self.is_ready = False
        self.end_calls(9)

    def line_up(self) -> None:
        self.link.send(bytes([0x10, 0, RESTART, 0 if self.link.is_dte else 7, 0]))

    def end_calls(self, cause: int) -> None:
        for call in self.calls.values():
            call.cleared = call.cleared or Cleared(cause, 0)
        self.calls, self.incoming = {}, []

    def take(self, packet: bytes) -> None:
        """Takes a packet: that of the line itself, or that of a call."""
        channel, kind = packet[0] % 16 * 256 + packet[1], packet[2]
        if channel == 0:
            self.take_restart(kind)
        elif not self.is_ready:
            return
        elif kind == CALL:
            call = self.calls[channel] = Call(self, channel)
            call.read_call(packet)
            self.incoming.append(call)
        elif channel in self.calls:
            self.calls[channel].take(packet)

    def take_restart(self, kind: int) -> None:
        if kind == RESTART and self.is_ready:
            self.end_calls(0)
            self.link.send(bytes([0x10, 0, RESTART_CONFIRMATION]))
        self.is_ready = self.is_ready or kind in (RESTART, RESTART_CONFIRMATION)

    def place(self, called: str, calling: str, user_data: bytes) -> "Call":
        numbers = range(1, self.channels + 1)
        free = [channel for channel in numbers if channel not in self.calls]
        if not self.is_ready or not free:
            raise Failed("no call can be placed")
        channel = free[-1] if self.link.is_dte else free[0]
        call = self.calls[channel] = Call(self, channel)
        digits = called + calling + "0" * ((len(called) + len(calling)) % 2)
        call.send_packet(CALL, bytes([16 * len(calling) + len(called)]) + bytes.fromhex(digits) + b"\0" + user_data)
        return call


class Call:
    """One call on a channel: a window of seven packets of 128 octets."""

    SIZE, WINDOW = 128, 7

    def __init__(self, station: Station, channel: int):
        self.station, self.link, self.channel = station, station.link, channel
        self.called, self.calling, self.user_data = "", "", b""
        self.is_connected = False
        self.cleared: Cleared | None = None
        self.octets, self.messages, self.interrupts = b"", [], []
        self.resets: list[tuple[int, int]] = []
        self.begin()

    def begin(self) -> None:
        """P(S) and P(R) are 0."""
        self.next = self.acknowledged = self.expected = 0
        self.is_stopped = False

    def send_packet(self, third: int, rest: bytes = b"") -> None:
        self.link.send(bytes([0x10, self.channel, third]) + rest)

    def read_call(self, packet: bytes) -> None:
        called, calling = packet[3] % 16, packet[3] // 16
        end = 4 + (called + calling + 1) // 2
        digits = packet[4:end].hex()
        self.called, self.calling = digits[:called], digits[called : called + calling]
        self.user_data = packet[end + 1 + packet[end] :]

    def accept(self) -> None:
        self.is_connected = True
        self.send_packet(ACCEPTED)

    def take(self, packet: bytes) -> None:
        third, rest = packet[2], packet[3:]
        if third % 2 == 0:
            self.take_data(third, rest)
        elif third == ACCEPTED:
            self.is_connected = True
        elif third == CLEAR:
            self.send_packet(CLEAR_CONFIRMATION)
            self.end(rest[0], rest[1])
        elif third == CLEAR_CONFIRMATION:
            self.end(0, 0)
        elif third == INTERRUPT:
            self.interrupts.append(rest)
            self.send_packet(INTERRUPT_CONFIRMATION)
        elif third == RESET:
            self.resets.append((rest[0], rest[1]))
            self.begin()
            self.send_packet(RESET_CONFIRMATION)
        elif third % 32 in (RR, RNR):
            self.is_stopped = third % 32 == RNR
            self.acknowledged = third // 32

    def take_data(self, third: int, octets: bytes) -> None:
        if third // 2 % 8 != self.expected or len(octets) > self.SIZE:
            raise Failed(f"P(S) {third // 2 % 8} where {self.expected} is next, {len(octets)} octets")
        self.acknowledged = third // 32
        self.expected = (self.expected + 1) % 8
        self.octets += octets
        self.send_packet(32 * self.expected + RR)

    def end(self, cause: int, diagnostic: int) -> None:
        self.cleared = Cleared(cause, diagnostic)
        self.station.calls.pop(self.channel, None)

    # ---- what a test asks for

    def expect_standing(self) -> None:
        if self.cleared:
            raise self.cleared

    def may_send(self) -> bool:
        return bool(self.cleared) or not self.is_stopped and (self.next - self.acknowledged) % 8 < self.WINDOW

    def send(self, message: bytes) -> None:
        """Sends a message, in packets with M but for the last; waits for the window."""
        for at in range(0, max(1, len(message)), self.SIZE):
            self.link.wait(self.may_send, "the window")
            with self.link.changed:
                self.expect_standing()
                more = at + self.SIZE < len(message)
                self.send_packet(32 * self.expected + 16 * more + 2 * self.next, message[at : at + self.SIZE])
                self.next = (self.next + 1) % 8

    def read(self, count: int) -> bytes:
        """The next octets, so many."""
        self.link.wait(lambda: len(self.octets) >= count or self.cleared, f"{count} octets")
        if len(self.octets) < count:
            self.expect_standing()
        with self.link.changed:
            taken, self.octets = self.octets[:count], self.octets[count:]
        return taken

    def clear(self, cause: int = 0, diagnostic: int = 0) -> None:
        """Clears the call, and waits until that is confirmed."""
        with self.link.changed:
            self.send_packet(CLEAR, bytes([cause, diagnostic]))
        self.wait_cleared()

    def wait_cleared(self) -> tuple[int, int]:
        """Waits until the call is cleared, and gives the cause and the diagnostic."""
        cleared = self.link.wait(lambda: self.cleared, "the end of a call")
        return cleared.cause, cleared.diagnostic


# ---- it is tried against itself


def every(count: int):
    """Each frame of this number gets lost."""
    return lambda number: number % count == 0


def talk(lose) -> None:
    """A call each way, and 10,000 octets both ways, over links that lose such frames."""
    much = bytes(n * n % 251 for n in range(10_000))
    with Link(is_dte=True) as here, Link(is_dte=False) as there:
        for link in (here, there):
            link.frames.lose = lose
        there.start(here.port)
        here.start(there.port)
        here.wait_ready()
        there.wait_ready()
        seen: list[bytes] = []

        def answer() -> None:
            call = there.take_call()
            seen.append(call.read(len(much)))
            call.send(seen[0])
            seen.append(b"%d %d" % call.wait_cleared())
        thread = threading.Thread(target=answer, daemon=True)
        thread.start()
        call = here.call("2001", "1001", b"\1")
        call.send(much)
        back = call.read(len(much))
        call.clear(0, 5)
        thread.join(PATIENCE)
        if [hashlib.sha256(octets).digest() for octets in (back, seen[0])] != 2 * [hashlib.sha256(much).digest()]:
            raise Failed("octets differ")
        if seen[1] != b"0 5":
            raise Failed(f"the call was cleared by {seen[1]!r}")


def rejected() -> None:
    """FRMR has the DTE set the link up anew, and calls end with cause 9."""
    with Link(is_dte=True) as here, Link(is_dte=False) as there:
        there.start(here.port)
        here.start(there.port)
        here.wait_ready()
        there.wait_ready()
        with here.changed:
            call = here.station.place("2001", "", b"")
        there.take_call()
        here.wait(lambda: call.is_connected, "the answer to a call")
        with there.changed:
            there.response(FRMR, bytes([0xFF, 0, 1]))
        if call.wait_cleared() != (9, 0) or here.rejected != [bytes([0xFF, 0, 1])]:
            raise Failed("the link was not set up anew")
        here.wait_ready()


def main() -> int:
    repository.words_of(__doc__)
    failed = 0
    tries = [("no losses", lambda: talk(never)), ("each fifth frame lost", lambda: talk(every(5))),
             ("each eighth frame lost", lambda: talk(every(8))), ("FRMR", rejected)]
    for name, attempt in tries:
        try:
            attempt()
            print(f"{name}: ok")
        except (Failed, OSError) as fault:
            failed = 1
            print(f"{name}: {fault}")
    return failed


if __name__ == "__main__":
    sys.exit(main())
