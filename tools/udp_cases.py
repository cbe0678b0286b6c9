"""Cases of lines whose frames are datagrams: the other end is one by ISO 7776, and frames get lost."""
import contextlib
import socket

import lapb_peer
from lapb_peer import Call, Link
from line_cases import Lined
from serving import Client, Failed, Filed, Peer, called, digest, expect, pour, read_all, says_back, some_octets

# How many octets go each way, and how many where frames get lost.
MUCH, LITTLE = 20_000, 1_000

# The number of the line to the other end, and its address.
LINE, ADDRESS = 3, "40"


def network(role: str) -> str:
    """A PAD, two hosts and the other end at a switch: a host, as the DTE, or a switch, as the DCE."""
    other = "host" if role == "dce" else "switch"
    nodes = (("desk", "pad", "1001"), ("library", "host", "2001"), ("archive", "host", "2002"), ("remote", other, ADDRESS))
    text = ""
    for name, kind, _ in (*nodes[::-1], ("exchange", "switch", "")):
        text += f'[[node]]\nname = "{name}"\nkind = "{kind}"\n'
        text += 'terminals = 8\nset = "5:0,6:5,7:1,13:6"\n' if kind == "pad" else ""
    for line, (name, kind, address) in enumerate(nodes):
        dte, dce = ("exchange", name) if kind == "switch" else (name, "exchange")
        text += f'[[line]]\ndte = "{dte}"\ndce = "{dce}"\nchannels = 8\nwindow = 7\nn2 = 20\n'
        text += f'address = "{address}"\n' if kind != "switch" else ""
        text += f'[[route]]\nswitch = "exchange"\nprefix = "{address}"\nline = {line}\n'
    return text


def bindings(library: str, role: str, port: int, partner: int) -> str:
    """A service file: calls to the library are connections to an address, and those to the archive get back what they
    say. Connections to the caller's port are calls to the other end."""
    return ('network = "network.toml"\ncontrol = "127.0.0.1:0"\n'
            '[[terminals]]\npad = "desk"\nlisten = "127.0.0.1:0"\n'
            f'[[service]]\nhost = "library"\nconnect = "{library}"\n'
            '[[service]]\nhost = "archive"\nbuiltin = "echo"\n'
            '[[caller]]\nhost = "archive"\nlisten = "127.0.0.1:0"\ncall = "4002"\n'
            f'[[line]]\nline = {LINE}\nhere = "{role}"\nto = "udp"\n'
            f'bind = "127.0.0.1:{port}"\npartner = "127.0.0.1:{partner}"\n')


def free_port() -> int:
    """A port to which nobody is bound now."""
    with socket.socket(socket.AF_INET, socket.SOCK_DGRAM) as gone:
        gone.bind(("127.0.0.1", 0))
        return gone.getsockname()[1]


@contextlib.contextmanager
def joined(program: str, role: str = "dce", lose=lapb_peer.never):
    """A service with this role of a line, and the other end of it, each of which loses such frames of the other one."""
    port = free_port()
    with Peer(says_back) as library, Link(is_dte=role == "dce") as link:
        link.frames.lose, link.frames.lose_heard = lose, lose
        file = bindings(library.address, role, port, link.port)
        with Lined(program, network(role), file, ("2002",)) as service:
            expect(service.said(r"equipment  udp 127\.0\.0\.1 (\d+)\n"), str(port), "the port of the line")
            link.start(port)
            link.wait_ready()
            yield service, link, port


@contextlib.contextmanager
def beside(service: Filed):
    """A call of a terminal to the archive goes on meanwhile."""
    with Client(service.terminals()) as client:
        client.dial("2002")
        client.says_back("before")
        yield
        client.says_back("after")


def calls_both_ways(service: Filed, link: Link, much: int) -> None:
    """The other end calls a service and a terminal, and a terminal and a program call it."""
    octets = some_octets(much, 41)
    call = link.call("2001")
    call.send(octets)
    expect(digest(call.read(much)), digest(octets), "the digest of what came back")
    call.clear(0, 5)
    with Client(service.terminals()) as client:
        client.wait(b"clears the call.\r\n")
        call = link.call("1001")
        client.wait(b"COM\r\n")
        say(call, client)
        client.leave()
        expect(call.wait_cleared(), (0, 0), "the cause and diagnostic of a Clear")
        client.type("4001")
        call = link.take_call()
        expect((call.called, call.calling), ("4001", "1001"), "the addresses of a call")
        client.wait(b"COM\r\n")
        say(call, client)
        call.clear(0, 0)
        client.wait(b"CLR DTE")
    with called(service.callers()) as connection:
        call = link.take_call()
        pour(connection, octets)
        expect(digest(call.read(much)), digest(octets), "the digest of what came to the other end")
        call.send(b"")
        expect(call.wait_cleared(), (0, 0), "the cause and diagnostic of the Clear after both ends")
        expect(read_all(connection), b"", "what a program reads of an end that says nothing")


def say(call: Call, client: Client) -> None:
    """The other end and a terminal say something to each other."""
    call.send(b"from afar")
    client.wait(b"from afar")
    client.type("who is there")
    expect(call.read(12), b"who is there", "what a terminal says")


def datagrams(program: str) -> None:
    """The link is set up, and calls go both ways; then the other end disconnects, and sets it up again."""
    with joined(program) as (service, link, _), beside(service):
        calls_both_ways(service, link, MUCH)
        with Client(service.terminals()) as client:
            client.type("4001")
            link.take_call()
            client.wait(b"COM\r\n")
            with link.changed:
                link.command(lapb_peer.DISC + lapb_peer.POLL)
            client.wait(b"CLR DER")
            client.type("4001")
            client.wait(b"CLR DER")
            with link.changed:
                link.set_up()
            link.wait_ready()
            client.type("4001")
            link.take_call()
            client.wait(b"COM\r\n")


def datagrams_of_a_dce(program: str) -> None:
    """The other end is a switch and the DCE of the line."""
    with joined(program, "dte") as (service, link, _):
        calls_both_ways(service, link, LITTLE)


def datagrams_get_lost(program: str) -> None:
    """Each fifth frame gets lost, both ways."""
    with joined(program, lose=lapb_peer.every(5)) as (service, link, _), beside(service):
        octets = some_octets(LITTLE // 2, 42)  # each loss takes T1 to be mended
        call = link.call("2001")
        call.send(octets)
        expect(digest(call.read(len(octets))), digest(octets), "the digest of what came back")
        call.clear()


def datagrams_come_twice(program: str) -> None:
    """Each frame of the other end comes twice."""
    with joined(program) as (service, link, _), beside(service):
        link.frames.copies = 2
        calls_both_ways(service, link, LITTLE)
        expect(link.rejected, [], "what was rejected")


def bad_frames(program: str) -> None:
    """A frame that cannot be taken is rejected, and the link is set up anew: the calls over it are cleared."""
    with joined(program) as (service, link, _), Client(service.terminals()) as client, beside(service):
        for frame, why in ((bytes([0x01, 0xFF]), 1), (bytes([0x01, 0x21, 0x41]), 3), (bytes([0x01, 0x10]) + bytes(200), 4)):
            client.type("4001")
            call = link.take_call()
            client.wait(b"COM\r\n")
            say(call, client)
            link.wait(lambda: not link.waiting, "the acknowledgement of all frames")
            with link.changed:
                rejected = len(link.rejected)
                numbers = 32 * link.next + 2 * link.expected
                link.frames.send(frame)
            link.wait(lambda: len(link.rejected) > rejected, f"FRMR for {frame.hex()[:8]}")
            expect(link.rejected[-1], bytes([frame[1], numbers, why]), "the octets of FRMR")
            client.wait(b"CLR DER")
            link.wait_ready()
        link.call("2002").clear()


def datagrams_of_strangers(program: str) -> None:
    """Datagrams of others than the partner are not taken."""
    with joined(program) as (service, link, port), Client(service.terminals()) as client, beside(service):
        client.type("4001")
        call = link.take_call()
        client.wait(b"COM\r\n")
        with socket.socket(socket.AF_INET, socket.SOCK_DGRAM) as stranger:
            for frame in (b"", b"\1\x53", b"\1\x3f", b"\1\x2f", b"\1\xff", b"\1\x0f", b"\3\xff", bytes(2000)):
                stranger.sendto(frame, ("127.0.0.1", port))
            stranger.settimeout(0.5)
            with contextlib.suppress(TimeoutError):
                raise Failed(f"a stranger is answered {stranger.recv(2000)!r}")
        say(call, client)
        expect((link.is_up, link.rejected), (True, []), "whether the link is up, and what was rejected")


CASES = (datagrams_get_lost, datagrams, bad_frames, datagrams_come_twice, datagrams_of_a_dce, datagrams_of_strangers)
