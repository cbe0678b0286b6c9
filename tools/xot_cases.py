"""Cases of equipment of others over TCP (RFC 1613): it calls and is called, and its faults touch no other call."""
import contextlib
import random
import socket

import xot_peer
from line_cases import Lined
from serving import (PATIENCE, Client, Failed, Peer, break_off, called, digest, expect, pour, reach, read_all,
                     says_back, some_octets, wait_until)
from xot_peer import Call, Cleared, Listener, facilities

# How many octets go each way.
MUCH = 100_000

# How many streams of random octets come to a port, and how many octets each has at most.
STREAMS, MOST_OCTETS = 1_000, 200

# The number of the line to the equipment, and its address.
LINE, ADDRESS = 3, "30"

# How many octets of user data a call has at most.
MOST_USER_DATA = 16


def network(size: int = 128, window: int = 2, modulo: int = 8, channels: int = 4) -> str:
    """A PAD, two hosts and the equipment at a switch."""
    usual = "channels = 8\nwindow = 7"
    nodes = (("desk", "pad", "1001", usual), ("library", "host", "2001", usual), ("archive", "host", "2002", usual),
             ("router", "host", ADDRESS, f"channels = {channels}\nwindow = {window}\nsize = {size}\nmodulo = {modulo}"))
    text = '[[node]]\nname = "exchange"\nkind = "switch"\n'
    for name, kind, _, _ in nodes:
        text += f'[[node]]\nname = "{name}"\nkind = "{kind}"\n'
        text += 'terminals = 8\nset = "5:0,6:5,7:1,13:6"\n' if kind == "pad" else ""
    for line, (name, _, address, more) in enumerate(nodes):
        text += f'[[line]]\ndte = "{name}"\ndce = "exchange"\naddress = "{address}"\n{more}\n'
        text += f'[[route]]\nswitch = "exchange"\nprefix = "{address}"\nline = {line}\n'
    return text


def bindings(library: str, there: int, more: str = "", at_library: str = "") -> str:
    """A service file: calls to the library are connections to an address, and those to the archive get back what they
    say. Calls to numbers that begin with 30 are connections to a port of this machine."""
    return ('network = "network.toml"\ncontrol = "127.0.0.1:0"\n'
            '[[terminals]]\npad = "desk"\nlisten = "127.0.0.1:0"\n'
            f'[[service]]\nhost = "library"\nconnect = "{library}"\n{at_library}'
            '[[service]]\nhost = "archive"\nbuiltin = "echo"\n'
            '[[caller]]\nhost = "archive"\nlisten = "127.0.0.1:0"\ncall = "3002"\n'
            f'[[line]]\nline = {LINE}\nhere = "dce"\nto = "xot"\nlisten = "127.0.0.1:0"\n'
            f'connect = "127.0.0.1:{there}"\n{more}')


class Equipped(Lined):
    """A service with a line to equipment of others."""

    def __init__(self, program: str, listener: Listener, file: str, size: int = 128, window: int = 2, modulo: int = 8,
                 channels: int = 4):
        self.listener, self.size, self.window, self.extended = listener, size, window, modulo == 128
        super().__init__(program, network(size, window, modulo, channels), file, ("2002",))

    def wait_links(self) -> None:
        self.port = int(self.said(r"equipment  xot 127\.0\.0\.1 (\d+)\n"))
        super().wait_links()
        wait_until(self.is_up, "the restart of the line of the equipment")

    def is_up(self) -> bool:
        """Whether the line of the equipment is in r1: only then a number that nobody has is not obtainable."""
        return refused(lambda: self.call("9")) == (13, 0)

    def call(self, number: str, **more) -> Call:
        """Places a call of the equipment, with the packet size and the window of the line."""
        flow = {"size": self.size, "window": self.window, "extended": self.extended}
        return xot_peer.call(self.port, number, **(flow | more))


@contextlib.contextmanager
def equipped(program: str, handle=says_back, there: int = 0, more: str = "", at_library: str = "", **line):
    """A service whose equipment listens, or is called at a port, over such a line. Calls to the library are connections
    to a peer of this kind."""
    with Peer(handle) as library, Listener() as listener:
        file = bindings(library.address, there or listener.port, more, at_library)
        with Equipped(program, listener, file, **line) as service:
            yield service


def refused(place) -> tuple[int, int]:
    """The cause and the diagnostic with which a call is cleared."""
    try:
        place().clear()
    except Cleared as cleared:
        return cleared.cause, cleared.diagnostic
    raise Failed("the call was taken")


def expect_cleared(call: Call, cause: int, diagnostic: int = 0) -> None:
    """Waits until a call is cleared, and compares with what."""
    try:
        while True:
            call.step()
    except Cleared as cleared:
        expect((cleared.cause, cleared.diagnostic), (cause, diagnostic), "the cause and the diagnostic of a Clear")


def octets_of(call: Call, count: int) -> bytes:
    """So many octets of a call, and what is in one message with them."""
    octets = b""
    while len(octets) < count:
        octets += call.read()
    return octets


def wait_text(call: Call, text: bytes) -> None:
    """Waits until a text came over a call."""
    seen = b""
    while text not in seen:
        seen += call.read()


@contextlib.contextmanager
def beside(service: Equipped):
    """A call of a terminal to the archive goes on meanwhile."""
    with Client(service.terminals()) as client:
        client.dial("2002")
        client.says_back("before")
        yield
        client.says_back("after")


def wait_no_calls(service: Equipped) -> None:
    wait_until(lambda: "call " not in service.ask("status"), "the end of the calls")


# ---- calls


def equipment_calls_hosts(program: str) -> None:
    """Equipment calls services: one says back what it says, one says something and ends."""
    with equipped(program, at_library="hello = true\n", handle=tells_who) as service:
        call = service.call("2001", calling="77", user_data=bytes(range(MOST_USER_DATA)))
        expect(call.asked, facilities(128, 2), "the facilities of the answer")
        wait_text(call, b"CALL 30 2001 000102030405060708090a0b0c0d0e0f\r\n")
        expect_cleared(call, 0)
        call = service.call("2002")
        call.send(b"to and fro")
        expect(octets_of(call, 10), b"to and fro", "what comes back")
        call.clear(0, 5)
        service.wait_log(r"cleared node=archive channel=\d+ cause=0 diagnostic=5 .*")
        wait_no_calls(service)


def tells_who(connection: socket.socket) -> None:
    """A service that says back the first line that it is told, in small letters but for its word, and ends."""
    with connection.makefile("rb") as lines:
        word, _, rest = lines.readline().partition(b" ")
    connection.sendall(word + b" " + rest.lower())


def equipment_calls_terminals(program: str) -> None:
    """Equipment calls a terminal; each end clears."""
    with equipped(program) as service, Client(service.terminals()) as client:
        client.wait(b"clears the call.\r\n")
        for cleared_here in (True, False):
            call = service.call("1001")
            client.wait(b"COM\r\n")
            call.send(b"from afar")
            client.wait(b"from afar")
            client.type("who is there")
            wait_text(call, b"who is there")
            if cleared_here:
                client.leave()
                expect_cleared(call, 0)
            else:
                call.clear(0, 0)
                client.wait(b"CLR DTE")
        wait_no_calls(service)


def equipment_is_called(program: str) -> None:
    """A terminal and a program call equipment."""
    with equipped(program) as service, Client(service.terminals()) as client:
        client.type("3001")
        call = service.listener.take()
        expect((call.called, call.calling), ("3001", "1001"), "the addresses of a call")
        expect(call.asked, facilities(128, 2), "the facilities of a call")
        expect(call.user_data[:4], b"\1\0\0\0", "the user data of a PAD's call")
        client.wait(b"COM\r\n")
        client.type("who is there")
        wait_text(call, b"who is there")
        call.send(b"equipment")
        client.wait(b"equipment")
        call.clear(0, 0)
        client.wait(b"CLR DTE")
        program_calls(service)
        wait_no_calls(service)


def program_calls(service: Equipped) -> None:
    """A connection is a call to the equipment. The program ends its side, and then the equipment ends its own."""
    octets = some_octets(MUCH, 31)
    with called(service.callers()) as connection:
        call = service.listener.take()
        expect((call.called, call.calling), ("3002", "2002"), "the addresses of a program's call")
        pour(connection, octets)
        expect(digest(octets_of(call, MUCH)), digest(octets), "the digest of what came to the equipment")
        call.send(octets[::-1])
        call.send(b"")
        expect_cleared(call, 0)
        expect(digest(read_all(connection)), digest(octets[::-1]), "the digest of what the equipment said")


def long_messages(program: str) -> None:
    """100,000 octets go each way in messages with M bits, over lines of several sizes and windows."""
    octets = some_octets(MUCH, 32)
    for size, window, modulo in ((128, 2, 8), (256, 7, 8), (512, 2, 128), (1024, 7, 128)):
        with equipped(program, size=size, window=window, modulo=modulo) as service:
            call = service.call("2001")
            expect(call.asked, facilities(size, window), "the facilities of the answer")
            call.send(octets)
            expect(digest(octets_of(call, MUCH)), digest(octets), f"the digest of what came back, size {size}")
            call.clear()


# ---- what happens in a call


def interrupted(program: str) -> None:
    """Interrupts both ways, at a terminal and at a service."""
    with equipped(program) as service, Client(service.terminals()) as client:
        client.type("3001")
        call = service.listener.take()
        client.wait(b"COM\r\n")
        call.interrupt(b"!")
        call.interrupt(bytes(32))
        client.send(b"\x10")
        client.type("int")
        expect(call.read_interrupt(), b"\1", "the interrupt of a terminal")
        client.type("after")
        wait_text(call, b"after")
        call = service.call("2001")
        call.interrupt(b"!")
        call.send(b"after")
        expect(octets_of(call, 5), b"after", "what comes back after an interrupt")


def reset_calls(program: str) -> None:
    """Resets of both sides at a terminal, where the call goes on, and one at a service, which clears."""
    with equipped(program) as service, Client(service.terminals()) as client, beside(service):
        client.type("3001")
        call = service.listener.take()
        client.wait(b"COM\r\n")
        call.reset(0, 7)
        client.wait(b"RESET DTE")
        client.send(b"\x10")
        client.type("reset")
        wait_resets(call, [(0, 0)])
        client.type("after")
        wait_text(call, b"after")
        call.send(b"so it goes on")
        client.wait(b"so it goes on")
        call = service.call("2001")
        call.reset(0, 7)
        expect_cleared(call, 0)


def wait_resets(call: Call, wanted: list[tuple[int, int]]) -> None:
    while len(call.resets) < len(wanted):
        call.step()
    expect(call.resets, wanted, "the causes and diagnostics of resets")


# The causes with which equipment clears, and what a terminal is told.
CAUSES = ((0, b"DTE"), (1, b"OCC"), (3, b"INV"), (5, b"NC"), (9, b"DER"), (11, b"NA"), (13, b"NP"), (17, b"RPE"),
          (19, b"ERR"), (128, b"DTE"))


def cleared_with_causes(program: str) -> None:
    """Equipment refuses and clears calls with causes, and is told those of others."""
    with equipped(program) as service, Client(service.terminals()) as client, beside(service):
        for cause, told in CAUSES:
            client.type("3001")
            service.listener.take(cause=cause)
            client.wait(b"CLR " + told)
        with called(service.callers()) as connection:
            service.listener.take().clear(133, 66, bytes([0, 0]))
            expect(read_all(connection), b"", "what a call that is cleared says")
        service.wait_log(r"cleared node=archive channel=\d+ cause=133 diagnostic=66 .*")
        expect(refused(lambda: service.call("9999")), (13, 0), "the cause for a number that nobody has")


# ---- faults


def connections_are_cut(program: str) -> None:
    """A connection that is cut in a call, whoever called, clears the call with cause 9; one after a Clear does not."""
    with equipped(program) as service, Client(service.terminals()) as client, beside(service):
        for _ in range(3):
            client.type("3001")
            call = service.listener.take()
            client.wait(b"COM\r\n")
            call.send(b"before")
            client.wait(b"before")
            break_off(call.stream.connection)
            client.wait(b"CLR DER")
        client.type("3001")
        call = service.listener.take()
        client.wait(b"COM\r\n")
        call.write(xot_peer.CLEAR, bytes(2))
        call.stream.connection.close()
        client.wait(b"CLR DTE")
        for end in (break_off, socket.socket.close):
            call = service.call("2001")
            call.send(b"before")
            octets_of(call, 6)
            call.stream.connection.sendall(bytes([0, 0, 0, 9, 0x10, 1, 0]))
            end(call.stream.connection)
            wait_until(lambda: " to 2001 " not in service.ask("status"), "the end of the calls to the library")
        service.wait_log(r"cleared node=library channel=\d+ cause=9 diagnostic=0 .*")
        service.call("2001").clear()


def nobody_there(program: str) -> None:
    """Equipment that does not listen, and one that closes at once, clear with cause 9."""
    with socket.create_server(("127.0.0.1", 0)) as gone:
        port = gone.getsockname()[1]
    with equipped(program, there=port) as service, Client(service.terminals()) as client, beside(service):
        for _ in range(3):
            client.type("3001")
            client.wait(b"CLR DER")
        with called(service.callers()) as connection:
            expect(read_all(connection), b"", "what a call that is refused says")
        with socket.create_server(("127.0.0.1", port)) as there:
            there.settimeout(PATIENCE)
            client.type("3001")
            there.accept()[0].close()
            client.wait(b"CLR DER")
        service.call("2001").clear()


# What a call may ask for on a line of packets of 256 octets and a window of 7, and what not.
CARRIED = (facilities(256, 7), facilities(1024, 7), facilities(256, 7) + bytes([2, 0xAA, 1, 0]))
NOT_CARRIED = (b"", facilities(128, 7), facilities(256, 6), facilities(256, 7)[:3], bytes([0x42, 8, 7, 0x43, 7, 7]),
               bytes([0x42, 8, 8, 0x43, 6, 7]),
               *(facilities(256, 7) + bytes(more) for more in ([1, 1], [1, 0x80], [3, 0x11], [0xC9, 2, 0xAA, 0xBB], [0x42])))


def facilities_are_compared(program: str) -> None:
    """Calls that ask for more are brought down; those that end below the line's, or ask for something else, are
    cleared."""
    with equipped(program, size=256, window=7) as service, Client(service.terminals()) as client, beside(service):
        for asked in CARRIED:
            call = service.call("2001", asked=asked)
            expect(call.asked, facilities(256, 7), "the facilities of the answer")
            call.clear()
        for asked in NOT_CARRIED:
            expect(refused(lambda: service.call("2001", asked=asked)), (3, 0), f"the cause for {asked.hex()}")
        for answered in (b"", facilities(128, 7), facilities(256, 2), facilities(256, 7) + bytes([1, 1])):
            client.type("3001")
            call = service.listener.take(answered=answered)
            client.wait(b"CLR INV")
            expect_cleared(call, 3)
        client.type("3001")
        call = service.listener.take(answered=facilities(512, 7))
        client.wait(b"COM\r\n")
        call.clear()


def calls_are_refused(program: str) -> None:
    """User data of 17 octets, another numbering, packets that are no call, and calls without a free channel."""
    with equipped(program, channels=2) as service, beside(service):
        expect(refused(lambda: service.call("2001", user_data=bytes(17))), (19, 0), "the cause for 17 octets")
        expect(refused(lambda: service.call("2001", extended=True)), (19, 0), "the cause for numbers modulo 128")
        expect(answer_to(service, bytes([0x10, 1, 0xF5, 0, 0, 0])), bytes([0x10, 1, 0x13, 3, 0]), "the answer to a PVC")
        expect(answer_to(service, bytes([0x10, 1, 0, 65])), bytes([0x10, 1, 0x13, 19, 0]), "the answer to Data")
        expect(answer_to(service, bytes([0x10, 1, 0x13, 0, 0])), bytes([0x10, 1, 0x17]), "the answer to a Clear")
        calls = [service.call("2002") for _ in range(2)]
        expect(refused(lambda: service.call("2002")), (1, 0), "the cause for a third call on two channels")
        for call in calls:
            call.send(b"still here")
            expect(octets_of(call, 10), b"still here", "what comes back")
            call.clear()
        wait_until(lambda: is_taken(service), "a free channel")


def is_taken(service: Equipped) -> bool:
    """Whether a call to the archive is taken."""
    with contextlib.suppress(Failed, OSError):
        service.call("2002").clear()
        return True
    return False


def answer_to(service: Equipped, packet: bytes) -> bytes:
    """What is answered to the first packet of a connection."""
    with reach(f"127.0.0.1:{service.port}") as connection:
        stream = xot_peer.Stream(connection)
        stream.write(packet)
        return stream.read()


# Packets that a call does not allow: Call Accepted, Clear Confirmation, REJ, Data of 129 octets, an interrupt of 33.
ERRORS = (bytes([0x10, 1, 0x0F]), bytes([0x10, 1, 0x17]), bytes([0x10, 1, 0x29]), bytes([0x10, 1, 0]) + bytes(129),
          bytes([0x10, 1, 0x23]) + bytes(33), bytes([0x10, 0, 0xFB, 0, 0]))


def errors_clear_calls(program: str) -> None:
    """What the state of a call does not allow clears it with cause 19 there, and with 17 at the other end."""
    with equipped(program) as service, Client(service.terminals()) as client, beside(service):
        for packet in ERRORS:
            client.type("3001")
            call = service.listener.take()
            client.wait(b"COM\r\n")
            call.stream.write(packet)
            client.wait(b"CLR RPE")
            expect_cleared(call, 19)
        for header in (b"\0\1\0\3", b"\0\0\0\2", b"\0\0\4\7"):
            client.type("3001")
            call = service.listener.take()
            client.wait(b"COM\r\n")
            call.stream.connection.sendall(header)
            client.wait(b"CLR DER")
            expect(call.stream.is_ended(), True, f"whether the connection ends after {header.hex()}")


def random_streams(program: str) -> None:
    """Streams of random octets at the port of the equipment, half of them after a good header, touch no call."""
    octets = random.Random(33)
    with equipped(program) as service, beside(service):
        call = service.call("2001")
        for number in range(STREAMS):
            stream(service.port, octets.randbytes(octets.randrange(MOST_OCTETS)), number % 2 == 0)
            if number % 100 == 0:
                call.send(b"still here")
                expect(octets_of(call, 10), b"still here", "what comes back meanwhile")
        call.clear()
        wait_until(lambda: is_taken(service), "a free connection")


def stream(port: int, octets: bytes, has_header: bool) -> None:
    """Says octets over a new connection, and leaves."""
    with contextlib.suppress(OSError), reach(f"127.0.0.1:{port}") as connection:
        header = bytes([0, 0, 0, max(3, len(octets) + 1), 0x10]) if has_header else b""
        connection.sendall(header + octets)


def strangers(program: str) -> None:
    """A connection of one who may not connect is closed at once."""
    with Peer(says_back) as library, Listener() as listener:
        file = bindings(library.address, listener.port, 'allow = ["127.0.0.2/32"]\n')
        with Guarded(program, listener, file) as service, Client(service.terminals()) as client:
            with reach(f"127.0.0.1:{service.port}") as connection:
                expect(read_all(connection), b"", "what one is told who may not connect")
            service.wait_log(r"refused from=127\.0\.0\.1 .*")
            client.dial("2002")
            client.says_back("after")


class Guarded(Equipped):
    """A service whose equipment may connect from elsewhere alone."""

    def is_up(self) -> bool:
        return True


CASES = (long_messages, equipment_is_called, random_streams, facilities_are_compared, errors_clear_calls, connections_are_cut,
         nobody_there, cleared_with_causes, calls_are_refused, reset_calls, interrupted, equipment_calls_terminals,
         equipment_calls_hosts, strangers)
