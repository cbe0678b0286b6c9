"""Cases of bridges: calls that are connections to services, and connections that are calls."""
import contextlib
import re
import socket
import subprocess
import sys
import threading
import time

from serving import (PATIENCE, Client, Failed, Filed, Peer, answers_lines, break_off, called, digest, expect,
                     never_reads, pour, pours, reach, read_all, says_back, some_octets, swaps, tells_digest, wait_until)

# How many octets are sent each way.
MUCH = 1_000_000

# How many calls the network has at once where there are many.
MANY = 32

# A connection whose call is refused is closed in this time.
SOON = 5.0


def network(size: int = 128) -> str:
    """Two PADs and two hosts at a switch."""
    nodes = [("exchange", 'kind = "switch"'), ("desk", 'kind = "pad"\nterminals = 8\nset = "5:0,6:5,7:1,13:6"'),
             ("south", 'kind = "pad"\nterminals = 4\nset = "5:0,6:5,7:1,13:6"'), ("library", 'kind = "host"'),
             ("archive", 'kind = "host"')]
    text = "".join(f'[[node]]\nname = "{name}"\n{rest}\n' for name, rest in nodes)
    for line, (name, address, channels, most) in enumerate((("desk", 1001, 8, 128), ("south", 1002, 4, 128),
                                                            ("library", 2001, 32, size), ("archive", 2002, 32, size))):
        text += f'[[line]]\ndte = "{name}"\ndce = "exchange"\naddress = "{address}"\n'
        text += f'channels = {channels}\nwindow = 7\nsize = {most}\n'
        text += f'[[route]]\nswitch = "exchange"\nprefix = "{address}"\nline = {line}\n'
    return text


def bindings(library: str, archive: str = "", connections: int = 64, more: str = "", rest: str = "") -> str:
    """A service file: calls to the library are connections to an address, and so are those to the archive. Connections
    to the first caller's port are calls from the archive to the library, to the second one's the other way."""
    text = 'network = "network.toml"\ncontrol = "127.0.0.1:0"\n'
    for pad in ("desk", "south"):
        text += f'[[terminals]]\npad = "{pad}"\nlisten = "127.0.0.1:0"\n'
    text += f'[[service]]\nhost = "library"\nconnect = "{library}"\n{more}'
    text += f'[[service]]\nhost = "archive"\n' + (f'connect = "{archive}"\n' if archive else 'builtin = "echo"\n')
    for host, number in (("archive", 2001), ("library", 2002)):
        text += f'[[caller]]\nhost = "{host}"\nlisten = "127.0.0.1:0"\ncall = "{number}"\n'
    return text + rest + f"[limits]\nconnections = {connections}\n"


@contextlib.contextmanager
def bridged(program: str, handle, archive=None, numbers: tuple[str, ...] = ("2001", "2002"), **options):
    """A service whose calls to the library are connections to a peer of this kind."""
    with contextlib.ExitStack() as stack:
        library = stack.enter_context(Peer(handle))
        there = stack.enter_context(Peer(archive)).address if archive else ""
        text = bindings(library.address, there, **options)
        service = stack.enter_context(Filed(program, network(), text, numbers))
        service.library = library
        yield service


def swapped(address: str, octets: bytes) -> str:
    """Says octets over a call and takes what comes at the same time: gives its digest."""
    with called(address) as call:
        sender = threading.Thread(target=pour, args=(call, octets), daemon=True)
        sender.start()
        seen = digest(read_all(call))
        sender.join()
        return seen


def dialled(program: str) -> None:
    """A terminal dials a service, which answers its lines, and is told of the call's end."""
    with bridged(program, answers_lines) as service, Client(service.terminals()) as client:
        client.dial("2001")
        for line in ("one", "two", "three"):
            client.type(line)
            client.wait(f"you said {line}\r\n".encode())
        client.leave()
        client.dial("2001")
        client.type("again")
        client.wait(b"you said again\r\n")
        client.leave()
        wait_until(lambda: "call " not in service.ask("status"), "the end of the calls")
        service.stop()


def hello(program: str) -> None:
    """A service is told first who calls whom, with user data."""
    heard = []

    def listens(connection: socket.socket) -> None:
        heard.append(connection.makefile("rb").readline())
    with bridged(program, listens, more="hello = true\n", numbers=("2002",),
                 rest='[[caller]]\nhost = "archive"\nlisten = "127.0.0.1:0"\ncall = "2001"\nuser_data = "01fF0000"\n'
                 ) as service:
        with called(service.callers(2)) as call:
            read_all(call)
        with Client(service.terminals()) as client:
            client.dial("2001")
            client.wait(b"CLR DTE")
        wait_until(lambda: len(heard) == 2, "both calls")
        expect(heard[0].upper(), b"CALL 2002 2001 01FF0000\r\n", "the first line of a call with user data")
        if not re.fullmatch(rb"CALL 1001 2001 [0-9A-Fa-f]*\r\n", heard[1]):
            raise Failed(f"the first line of a terminal's call is {heard[1]!r}")


def refused(program: str) -> None:
    """A service that is not there refuses: a terminal is told so, and a connection is closed."""
    with socket.create_server(("127.0.0.1", 0)) as gone:
        address = "%s:%d" % gone.getsockname()
    with Filed(program, network(), bindings(address), ("2002",)) as service:
        with Client(service.terminals()) as client:
            client.type("2001")
            client.wait(b"CLR DTE")
        begun = time.monotonic()
        with called(service.callers()) as call:
            expect(read_all(call), b"", "what a call that is refused says")
        if time.monotonic() - begun > SOON:
            raise Failed("a call that is refused stood for long")
        service.wait_log(r'failed port=\d+ .*refused.*')


def late(program: str) -> None:
    """A service that does not let connections in within `wait` ticks refuses."""
    with socket.create_server(("127.0.0.1", 0), backlog=0) as full, contextlib.ExitStack() as stack:
        address = "%s:%d" % full.getsockname()
        for _ in range(4):
            waiting = stack.enter_context(socket.socket())
            waiting.setblocking(False)
            waiting.connect_ex(full.getsockname())
        with Filed(program, network(), bindings(address, more="wait = 20\n"), ("2002",)) as service:
            with Client(service.terminals()) as client:
                begun = time.monotonic()
                client.type("2001")
                client.wait(b"CLR DTE")
                if not 0.5 < time.monotonic() - begun < SOON:
                    raise Failed(f"a late service refused after {time.monotonic() - begun:.1f} seconds")


def one_way(program: str) -> None:
    """A service says much and ends its side; one takes much, and answers once the caller's side has ended."""
    octets = some_octets(MUCH, 1)
    with bridged(program, pours(octets), tells_digest) as service:
        with called(service.callers()) as call:
            expect(digest(read_all(call)), digest(octets), "the digest of what the service said")
        with called(service.callers(1)) as call:
            pour(call, octets)
            told = read_all(call).decode()
            expect(told, f"{MUCH} {digest(octets)}\n", "what the service tells after the end of the other side")
        wait_until(lambda: "call " not in service.ask("status"), "the end of the calls")


def both_ways(program: str) -> None:
    """Much goes both ways at once."""
    there, back, seen = some_octets(MUCH, 2), some_octets(MUCH, 3), []
    with bridged(program, swaps(back, seen)) as service:
        seen.clear()
        expect(swapped(service.callers(), there), digest(back), "the digest of what came back")
        wait_until(lambda: digest(there) in seen, "all that was sent")


def half_close(program: str) -> None:
    """A client sends much, ends its side, and then reads the service's slow answer."""
    octets = some_octets(MUCH, 4)

    def slowly(connection: socket.socket) -> None:
        taken = read_all(connection)
        time.sleep(3)
        connection.sendall(digest(taken).encode())
        time.sleep(1)
        connection.sendall(b" and good bye\n")
    with bridged(program, slowly) as service, called(service.callers()) as call:
        pour(call, octets)
        expect(read_all(call).decode(), f"{digest(octets)} and good bye\n", "the answer after the end of the client's side")


def never_taken(program: str) -> None:
    """A service that never reads stops its sender alone, and memory stays as it is after the first such call."""
    with bridged(program, never_reads, says_back) as service:
        first = called(service.callers())
        expect(first.recv(16), b"I do not read.\r\n", "what the service says first")
        fill(first)
        break_off(first)
        wait_until(lambda: "call " not in service.ask("status"), "the end of the first call")
        before = service.resident()
        with called(service.callers()) as stuck, called(service.callers(1)) as other:
            expect(stuck.recv(16), b"I do not read.\r\n", "what the service says to the next one")
            stopped = fill(stuck)
            other.sendall(b"still here")
            expect(other.recv(16), b"still here", "what another call says back")
            with Client(service.terminals()) as client:
                client.dial("2002")
                client.type("and I")
                client.wait(b"and I\r\n")
            if service.resident() > before + 512:
                raise Failed(f"memory grew from {before} to {service.resident()} kilobytes, {stopped} octets were sent")
        service.stop()


def fill(connection: socket.socket) -> int:
    """Sends until nothing has been taken for two seconds, and gives how many octets were."""
    connection.settimeout(2)
    sent, block = 0, bytes(65536)
    try:
        while sent < 100_000_000:
            sent += connection.send(block)
    except TimeoutError:
        return sent
    raise Failed("the sender was never stopped")


def several(program: str) -> None:
    """Several calls at one host at once, each with its own octets."""
    with bridged(program, says_back) as service:
        outcomes = {}

        def play(number: int) -> None:
            octets = some_octets(100_000, number)
            outcomes[number] = swapped(service.callers(), octets) == digest(octets)
        in_threads(play, range(12))
        expect([number for number in range(12) if not outcomes.get(number)], [], "the calls with other octets")


def in_threads(play, numbers) -> None:
    threads = [threading.Thread(target=play, args=(number,), daemon=True) for number in numbers]
    for thread in threads:
        thread.start()
    for thread in threads:
        thread.join(2 * PATIENCE)


def all_at_once(program: str) -> None:
    """Terminals of two PADs call each other and both hosts, and the hosts call each other, at once."""
    there, back, seen = some_octets(300_000, 5), some_octets(300_000, 6), []
    with bridged(program, answers_lines, swaps(back, seen), numbers=("2001",)) as service:
        outcomes = {}

        def play(number: int) -> None:
            if number < 2:
                outcomes[number] = swapped(service.callers(1), there) == digest(back)
                return
            with Client(service.terminals(number % 2)) as client:
                client.dial("2001")
                for line in range(20):
                    client.type(f"line {line} of {number}")
                    client.wait(f"you said line {line} of {number}\r\n".encode())
                outcomes[number] = True
        with Client(service.terminals(0)) as one, Client(service.terminals(1)) as other:
            other.wait(b"clears the call.\r\n")
            one.dial("1002")
            in_threads(play, range(8))
            one.type("are you there")
            other.wait(b"are you there")
            other.type("I am")
            one.wait(b"I am")
        expect([number for number in range(8) if not outcomes.get(number)], [], "what did not go as it must")


def reset(program: str) -> None:
    """A call that is reset is cleared, or goes on."""
    with bridged(program, answers_lines) as service:
        with Client(service.terminals()) as client:
            client.dial("2001")
            client.send(b"\x10")
            client.type("reset")
            client.wait(b"CLR DTE")
        service.wait_log(r"reset node=library channel=\d+ .*")
    with bridged(program, answers_lines, more='at_reset = "continue"\n') as service:
        with Client(service.terminals()) as client:
            client.dial("2001")
            client.type("before")
            client.wait(b"you said before\r\n")
            client.send(b"\x10")
            client.type("reset")
            client.type("after")
            client.wait(b"after\r\n")
            client.wait(b"after\r\n")


SLEEPER = """import socket, sys, time
call = socket.create_connection(("127.0.0.1", int(sys.argv[1])))
call.sendall(b"here I am" * 1000)
print(call.recv(4), flush=True)
time.sleep(100)
"""

SERVER = """import socket, sys, time
server = socket.create_server(("127.0.0.1", int(sys.argv[1])))
print("ready", flush=True)
while True:
    call, _ = server.accept()
    call.sendall(b"come in")
    kept = globals().setdefault("kept", [])
    kept.append(call)
"""


def killed_client(program: str) -> None:
    """The call of a client that is killed is cleared, and the service is told."""
    ends = []

    def listens(connection: socket.socket) -> None:
        connection.sendall(b"come in")
        with contextlib.suppress(OSError):
            read_all(connection)
        ends.append(True)
    with bridged(program, listens) as service:
        ends.clear()
        child = subprocess.Popen([sys.executable, "-c", SLEEPER, service.callers().split(":")[1]], stdout=subprocess.PIPE)
        expect(child.stdout.readline(), b"b'come'\n", "what the client that will be killed reads")
        child.kill()
        child.communicate()
        wait_until(lambda: ends, "the end of the killed client's connection")
        ends.clear()
        call = called(service.callers())
        expect(call.recv(4), b"come", "what a client reads before it breaks off")
        break_off(call)
        wait_until(lambda: ends, "the end of the broken connection")
        wait_until(lambda: "call " not in service.ask("status"), "the end of the calls")


def killed_service(program: str) -> None:
    """The calls of a service that is killed are cleared, others go on, and it is called again once it is back."""
    with socket.create_server(("127.0.0.1", 0)) as gone:
        port = gone.getsockname()[1]
    with Filed(program, network(), bindings(f"127.0.0.1:{port}"), ("2002",)) as service:
        for _ in range(2):
            child = subprocess.Popen([sys.executable, "-c", SERVER, str(port)], stdout=subprocess.PIPE)
            expect(child.stdout.readline(), b"ready\n", "the first line of the service")
            with Client(service.terminals()) as client, Client(service.terminals()) as other:
                other.dial("2002")
                client.dial_until_answered("2001")
                client.wait(b"come in")
                client.type("some octets that it never reads")
                child.kill()
                child.communicate()
                client.wait(b"CLR DTE")
                other.says_back("I go on")


def full(program: str) -> None:
    """Of 64 connections at a limit of 32 the rest are closed, and others are let in when those have ended."""
    with bridged(program, says_back, connections=MANY) as service:
        calls = [called(service.callers(1)) for _ in range(64)]
        for call in calls:
            with contextlib.suppress(OSError):
                call.sendall(b"x")
        expect([said(call) for call in calls].count(b"x"), MANY, "how many of 64 calls were served")
        for call in calls:
            break_off(call)
        wait_until(lambda: "call " not in service.ask("status"), "the end of the calls")
        expect(swapped(service.callers(), b"again"), digest(b"again"), "the digest of a call after many")


def both_ends(program: str) -> None:
    """Each of 30 calls at once has a bridge at both ends, and all are served: none of the 60 bridges is passed over."""
    with bridged(program, says_back, says_back) as service:
        with contextlib.ExitStack() as stack:
            calls = [stack.enter_context(called(service.callers(1))) for _ in range(MANY - 2)]
            for number, call in enumerate(calls):
                call.sendall(b"%5d" % number)
            seen = [said_back(call, 5) for call in calls]
            expect(seen, [b"%5d" % number for number in range(MANY - 2)], "what 30 calls say back")


def said_back(call: socket.socket, count: int) -> bytes:
    """So many octets that come, or fewer if the connection is closed."""
    octets = b""
    with contextlib.suppress(OSError):
        while len(octets) < count and (part := call.recv(count - len(octets))):
            octets += part
    return octets


def callers_allowed(program: str) -> None:
    """A caller's port lets in those alone that its table allows: a stranger gets no call."""
    more = '[[caller]]\nhost = "archive"\nlisten = "127.0.0.1:0"\ncall = "2001"\nallow = ["10.0.0.0/8"]\n'
    with bridged(program, says_back, rest=more) as service:
        before = service.library.accepted
        with called(service.callers(2)) as call:
            with contextlib.suppress(OSError):
                call.sendall(b"let me in")
            expect(said(call), b"", "what a stranger gets at a caller's port")
        service.wait_log(r"refused from=127\.0\.0\.1 at=" + re.escape(service.callers(2)))
        expect(service.library.accepted, before, "how many calls came of it")


def all_taken(program: str) -> None:
    """Terminals and callers share the connections that there may be. No more come in: they are told, and closed."""
    with bridged(program, says_back, connections=3, numbers=("2002",)) as service, contextlib.ExitStack() as stack:
        clients = [stack.enter_context(Client(service.terminals())) for _ in range(2)]
        for client in clients:
            client.wait(b"clears the call.\r\n")
        call = stack.enter_context(called(service.callers(1)))
        call.sendall(b"a")
        expect(said(call), b"a", "what a call within the limit says back")
        with called(service.callers(1)) as over:
            with contextlib.suppress(OSError):
                over.sendall(b"x")
            expect(said(over), b"", "what a call over the limit says back")
        with Client(service.terminals()) as over:
            over.wait(b"All terminals are taken.")
            over.wait_end()
        break_off(call)
        wait_until(lambda: service.ask("status").count(" in use ") == 2, "the end of the call")
        with called(service.callers(1)) as again:
            again.sendall(b"b")
            expect(said(again), b"b", "what a call says back once there is a place")


def silent_askers(program: str) -> None:
    """Four who connect to the control port and say nothing do not keep the status from others: their time ends."""
    with bridged(program, says_back) as service, contextlib.ExitStack() as stack:
        for _ in range(4):
            stack.enter_context(reach(service.control))
        if "node desk pad up" not in service.ask("status"):
            raise Failed("the status was not told beside four who are silent")


def said(call: socket.socket) -> bytes:
    """The first octet that comes, none if the connection is closed."""
    try:
        return call.recv(1)
    except OSError:
        return b""


def stopped(program: str) -> None:
    """A service is stopped in a transfer: both sides see the end."""
    with bridged(program, says_back) as service, called(service.callers()) as call:
        octets = some_octets(10_000_000, 7)
        sender = threading.Thread(target=pour, args=(call, octets), daemon=True)
        sender.start()
        seen = call.recv(65536)
        service.stop()
        with contextlib.suppress(ConnectionResetError):
            while part := call.recv(65536):
                seen += part
        expect(octets.startswith(seen), True, "that what came is the beginning of what was sent")


def told(program: str) -> None:
    """The log and the status tell of a call, and have no octets of users."""
    with bridged(program, says_back) as service:
        with called(service.callers()) as call:
            call.sendall(b"a secret of mine")
            while len(call.recv(1, socket.MSG_PEEK)) < 1:
                time.sleep(0.05)
            status = service.ask("status")
            for form in (r"call from 2002 to 2001 node library channel \d+ since 20.* UTC taken 16 said 1?\d\n",
                         r"call from 2002 to 2001 node archive channel \d+ since 20.* UTC taken 1?\d said 16\n"):
                if not re.search(form, status):
                    raise Failed(f"the status has no line {form!r}: {status!r}")
            call.shutdown(socket.SHUT_WR)
            read_all(call)
        for form in (r"connect port=\d+ to=" + re.escape(service.library.address),
                     r"call from=2002 to=2001 node=library channel=\d+",
                     r"connected node=archive channel=\d+",
                     r"cleared node=library channel=\d+ cause=0 diagnostic=0 .*taken=16 said=16 .*",
                     r"leave port=\d+ .*"):
            service.wait_log(form)
        service.stop()
        if any("secret" in line for line in service.lines()):
            raise Failed("the log has octets of a user")


def flat(program: str) -> None:
    """Memory does not grow with octets or calls."""
    with bridged(program, says_back) as service:
        octets = some_octets(200_000, 8)
        for _ in range(60):
            swapped(service.callers(), b"short")
        swapped(service.callers(), octets)
        before = service.resident()
        for _ in range(5):
            expect(swapped(service.callers(), octets * 5), digest(octets * 5), "the digest of what came back")
        for _ in range(300):
            expect(swapped(service.callers(), b"short"), digest(b"short"), "the digest of a short call")
        if service.resident() > before + 256:
            raise Failed(f"memory grew from {before} to {service.resident()} kilobytes")


def told_once(program: str) -> None:
    """A call between terminals of one service is told once in the status, by the PAD that is called."""
    with bridged(program, says_back) as service:
        with Client(service.terminals()) as client, Client(service.terminals(1)) as other:
            other.wait(b"clears the call.\r\n")
            client.dial("1002")
            service.wait_status("call from 1001 to 1002 node south channel ")
            expect(service.ask("status").count("\ncall from "), 1, "how many calls are told")
            client.leave()
            wait_until(lambda: "\ncall from " not in service.ask("status"), "the end of the call in the status")
        service.stop()


CASES = (one_way, both_ways, half_close, never_taken, killed_service, both_ends, all_taken, silent_askers, callers_allowed,
         dialled, hello, refused, late, several, all_at_once, reset, killed_client, full, stopped, told, told_once, flat)
