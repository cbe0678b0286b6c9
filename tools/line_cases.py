"""Cases of lines between services: two and three of them run one network, and what is between them cuts and delays."""
import contextlib
import re
import socket
import tempfile
import threading
import time

from serving import (PATIENCE, Client, Failed, Filed, Peer, called, digest, expect, pour, read_all, reach, run, says_back,
                     some_octets, tells_digest, wait_until, written)

# How many octets go over a line that is cut, and how often it is.
MUCH = 2_000_000
CUTS = 6

# After how many ticks without a connection a link is given up where that matters, and after how many of silence a
# connection is closed. Twenty ticks are a second.
HOLD, SILENCE = 40, 40


def free_port() -> int:
    """A port that nobody listens to now."""
    with socket.create_server(("127.0.0.1", 0)) as gone:
        return gone.getsockname()[1]


# The nodes of each switch, with the address of each.
PLACES = {"east": (("library", "host", 2001), ("gate", "pad", 1002)), "west": (("desk", "pad", 1001), ("archive", "host", 2002)),
          "north": (("tower", "host", 2003),)}

# The lines between switches, the DCE first, and the numbers of all lines: those of users come first.
TRUNKS = (("east", "west"), ("north", "east"))
USERS = [(switch, *user) for switch, users in PLACES.items() for user in users]
LINES = [name for _, name, _, _ in USERS] + [f"{dce}-{dte}" for dce, dte in TRUNKS]


def next_hop(here: str, there: str) -> str:
    """The trunk on which one switch reaches another."""
    for dce, dte in TRUNKS:
        if here in (dce, dte):
            other = dte if here == dce else dce
            if other == there or reaches(other, there, here):
                return f"{dce}-{dte}"
    raise KeyError(there)


def reaches(here: str, there: str, not_by: str) -> bool:
    return any(there in pair and not_by not in pair and here in pair for pair in TRUNKS)


def network(n2: int = 20) -> str:
    """Three switches in a row, with PADs and hosts."""
    text = "".join(f'[[node]]\nname = "{switch}"\nkind = "switch"\n' for switch in ("north", "east", "west"))
    for _, name, kind, _ in USERS:
        text += f'[[node]]\nname = "{name}"\nkind = "{kind}"\n'
        text += 'terminals = 4\nset = "5:0,6:5,7:1,13:6"\n' if kind == "pad" else ""
    for switch, name, kind, address in USERS:
        text += f'[[line]]\ndte = "{name}"\ndce = "{switch}"\naddress = "{address}"\nchannels = 8\nwindow = 7\n'
    for dce, dte in TRUNKS:
        text += f'[[line]]\ndte = "{dte}"\ndce = "{dce}"\nchannels = 16\nwindow = 7\nn2 = {n2}\n'
    for switch in PLACES:
        for place, name, _, address in USERS:
            line = name if place == switch else next_hop(switch, place)
            text += f'[[route]]\nswitch = "{switch}"\nprefix = "{address}"\nline = {LINES.index(line)}\n'
    return text


def line(trunk: str, end: str, way: str, hold: int = HOLD, silence: int = SILENCE) -> str:
    """A table of a line to another service."""
    return (f'[[line]]\nline = {LINES.index(trunk)}\nhere = "{end}"\nto = "findravolo"\n{way}\n'
            f'hold = {hold}\nsilence = {silence}\n')


HEAD = 'network = "network.toml"\ncontrol = "127.0.0.1:0"\n'
AT_DESK = '[[terminals]]\npad = "desk"\nlisten = "127.0.0.1:0"\n'
AT_GATE = '[[terminals]]\npad = "gate"\nlisten = "127.0.0.1:0"\n'
FROM_ARCHIVE = '[[caller]]\nhost = "archive"\nlisten = "127.0.0.1:0"\ncall = "2001"\n'


def service_at(host: str, connect: str) -> str:
    return f'[[service]]\nhost = "{host}"\nconnect = "{connect}"\n'


class Between:
    """What is between two services: connections to it are connections to a port, which it cuts and delays."""

    def __init__(self, port: int, delay: float = 0.0, most: int = 65536):
        self.port, self.delay, self.most, self.pairs, self.passed = port, delay, most, [], 0
        self.lock = threading.Lock()
        self.socket = socket.create_server(("127.0.0.1", 0))
        self.address = "%s:%d" % self.socket.getsockname()
        threading.Thread(target=self.accept, daemon=True).start()

    def __enter__(self):
        return self

    def __exit__(self, *_):
        self.leave()

    def leave(self) -> None:
        """Nobody listens here any more."""
        with contextlib.suppress(OSError):
            self.socket.shutdown(socket.SHUT_RDWR)
        self.socket.close()
        self.cut()

    def accept(self) -> None:
        with contextlib.suppress(OSError):
            while True:
                here, _ = self.socket.accept()
                self.join(here)

    def join(self, here: socket.socket) -> None:
        """Joins one who came to the port, if somebody is there."""
        try:
            there = socket.create_connection(("127.0.0.1", self.port), timeout=PATIENCE)
        except OSError:
            here.close()
            return
        for end in (here, there):
            end.setsockopt(socket.IPPROTO_TCP, socket.TCP_NODELAY, 1)
            end.settimeout(None)
        with self.lock:
            self.pairs.append((here, there))
        for one, other in ((here, there), (there, here)):
            threading.Thread(target=self.carry, args=(one, other), daemon=True).start()

    def carry(self, one: socket.socket, other: socket.socket) -> None:
        """Carries what one says to the other, in pieces."""
        with contextlib.suppress(OSError):
            while part := one.recv(self.most):
                if self.delay:
                    time.sleep(self.delay)
                other.sendall(part)
                self.passed += len(part)
        for end in (one, other):
            with contextlib.suppress(OSError):
                end.shutdown(socket.SHUT_RDWR)

    def cut(self) -> None:
        """Cuts all connections."""
        with self.lock:
            pairs, self.pairs = self.pairs, []
        for pair in pairs:
            for end in pair:
                with contextlib.suppress(OSError):
                    end.shutdown(socket.SHUT_RDWR)
                end.close()


class Lined(Filed):
    """A service with lines to others. Its nodes start when its partners let them, so it dials after that."""

    def wait_links(self) -> None:
        if self.numbers:
            self.wait_log(r"line up line=\d+")
        super().wait_links()


def lines_port(service: Filed) -> int:
    """The port to which lines of a service come."""
    return int(service.said(r"lines      tcp \S+ (\d+)\n"))


def east(program: str, library: str, port: int = 0, nodes: str = "", more: str = "", **times) -> Lined:
    """The service with the host `library`, to which the line of the west comes."""
    listen = line("east-west", "dce", f'listen = "127.0.0.1:{port}"', **times)
    text = HEAD + AT_GATE + service_at("library", library) + listen + more
    return Lined(program, nodes or network(), text)


def west(program: str, to: str, numbers: tuple[str, ...] = ("2001",), nodes: str = "", **times) -> Lined:
    """The service with the PAD `desk` and the host `archive`, whose line goes to the east."""
    connect = line("east-west", "dte", f'connect = "{to}"', **times)
    return Lined(program, nodes or network(), HEAD + AT_DESK + FROM_ARCHIVE + connect, numbers)


# The north is in no process of these cases, but for one.
@contextlib.contextmanager
def both(program: str, handle, between=None, **times):
    """Two services that run one network, and what is between them."""
    with contextlib.ExitStack() as stack:
        library = stack.enter_context(Peer(handle))
        there = stack.enter_context(east(program, library.address, **times))
        port = lines_port(there)
        middle = stack.enter_context(between(port)) if between else None
        to = middle.address if middle else f"127.0.0.1:{port}"
        here = stack.enter_context(west(program, to, **times))
        yield here, there, middle


def sent(address: str, octets: bytes, disturb=None) -> None:
    """Says octets over a call, whose service tells how many it took, and their digest."""
    with called(address) as call:
        sender = threading.Thread(target=pour, args=(call, octets), daemon=True)
        sender.start()
        if disturb:
            disturb()
        expect(read_all(call).decode(), f"{len(octets)} {digest(octets)}\n", "what the service tells of what it took")
        sender.join()


def two(program: str) -> None:
    """A terminal here and a service there, and much from a program here to it."""
    with both(program, tells_digest) as (here, there, _):
        octets = some_octets(MUCH // 4, 11)
        sent(here.callers(), octets)
        with Client(here.terminals()) as client, Client(there.terminals()) as other:
            other.wait(b"clears the call.\r\n")
            client.dial("1002")
            for service, node in ((here, "desk"), (there, "gate")):
                service.wait_status(f"call from 1001 to 1002 node {node} channel ")
            client.type("are you there")
            other.wait(b"are you there")
            other.type("I am")
            client.wait(b"I am")
        here.wait_log(r"line up line=\d+")
        there.wait_log(r"line up line=\d+")
        status = here.ask("status")
        for told in ("node desk pad up\n", "node gate pad elsewhere\n", "line 2 dte desk dce west up\n",
                     "line 5 dte west dce east up\n", "line 1 dte gate dce east elsewhere\n"):
            expect(told in status, True, f"whether {told!r} is in the status")


def early(program: str) -> None:
    """Who comes before a PAD has started waits until it has. Nobody is at the other end of its line."""
    alone = HEAD + AT_DESK + line("desk", "dte", f'connect = "127.0.0.1:{free_port()}"')
    with Lined(program, network(), alone) as here:
        begun = time.monotonic()
        expect("node desk pad starting\n" in here.ask("status"), True, "whether the PAD starts, as the status has it")
        with Client(here.terminals()) as client:
            client.wait(b"Terminal 0 of desk.")
        if not 2 * SILENCE / 20 - 2 < time.monotonic() - begun < 2 * SILENCE / 20 + 8:
            raise Failed(f"the client had to wait for {time.monotonic() - begun:.1f} seconds")
        here.wait_status("node desk pad up\n")
        here.wait_status("line 2 dte desk dce west down\n")


def stops(program: str) -> None:
    """A service with lines stops soon, whether its partner is there or not, and calls over them are cleared at once."""
    with both(program, says_back, hold=600) as (here, there, _):
        with Client(there.terminals()) as client, Client(here.terminals()) as caller:
            client.wait(b"clears the call.\r\n")
            caller.dial("1002")
            client.wait(b"COM")
            stop_soon(here)
            client.wait(b"CLR ", patience=5.0)
        stop_soon(there)


def stop_soon(service: Filed) -> None:
    begun = time.monotonic()
    service.stop()
    if time.monotonic() - begun > 5:
        raise Failed(f"stopping took {time.monotonic() - begun:.1f} seconds")


def three(program: str) -> None:
    """Of three services the one in the middle passes calls on."""
    with contextlib.ExitStack() as stack:
        tower = stack.enter_context(Peer(says_back))
        library = stack.enter_context(Peer(says_back))
        listen = line("north-east", "dce", 'listen = "127.0.0.1:0"')
        north = stack.enter_context(Lined(program, network(), HEAD + service_at("tower", tower.address) + listen))
        to_north = line("north-east", "dte", f'connect = "127.0.0.1:{lines_port(north)}"')
        middle = stack.enter_context(east(program, library.address, more=to_north))
        here = stack.enter_context(west(program, f"127.0.0.1:{lines_port(middle)}", ("2001", "2003")))
        with Client(here.terminals()) as client, Client(middle.terminals()) as other:
            client.dial("2003")
            client.says_back("from the west")
            other.dial("2003")
            other.says_back("from the east")


def cut(program: str) -> None:
    """The connection is cut six times in a transfer, and all arrives."""
    with both(program, tells_digest, Between, hold=600) as (here, there, between):
        def cuts() -> None:
            for _ in range(CUTS):
                passed = between.passed
                wait_until(lambda: between.passed > passed + MUCH // 10, "some of the transfer", 3 * PATIENCE)
                between.cut()
        # Calls that were dialled before the links stood were cleared.
        before = len(here.lines())
        sent(here.callers(), some_octets(MUCH, 12), cuts)
        lost = [text for text in here.lines()[before:] if text.startswith("cleared") and "cause=0" not in text]
        expect(lost, [], "the calls that were lost")


def slow(program: str) -> None:
    """What is between them delays."""
    with both(program, tells_digest, lambda port: Between(port, delay=0.1)) as (here, _, _):
        sent(here.callers(), some_octets(50_000, 13))


def by_octets(program: str) -> None:
    """What is between them delivers octet by octet."""
    with both(program, tells_digest, lambda port: Between(port, most=1)) as (here, _, _):
        sent(here.callers(), some_octets(20_000, 14))


def killed(program: str) -> None:
    """Either service is killed in a call and started again: who called is told, and new calls go through."""
    port = free_port()
    with Peer(says_back) as library, contextlib.ExitStack() as kept:
        there = kept.enter_context(east(program, library.address, port))
        here = kept.enter_context(west(program, f"127.0.0.1:{port}"))
        with Client(here.terminals()) as client:
            client.dial("2001")
            client.says_back("before")
            there.process.kill()
            there.process.wait()
            here.wait_status("line 5 dte west dce east down\n")
            there = kept.enter_context(east(program, library.address, port))
            client.wait(b"CLR ")
            here.wait_status("line 5 dte west dce east up\n")
            client.dial_until_answered("2001")
            client.says_back("the service there was killed")
        with Client(there.terminals()) as client:
            client.wait(b"clears the call.\r\n")
            with Client(here.terminals()) as caller:
                caller.dial("1002")
                client.wait(b"COM")
                here.process.kill()
                here.process.wait()
                here = kept.enter_context(west(program, f"127.0.0.1:{port}"))
                client.wait(b"CLR ")
        with Client(here.terminals()) as client:
            client.dial_until_answered("2001")
            client.says_back("the service here was killed")


def given_up(program: str, lose, hold: int = HOLD) -> None:
    """A partner is lost, and its line is given up after a time: who called is told."""
    with both(program, says_back, Between, hold=hold) as (here, _, between):
        with Client(here.terminals()) as client:
            client.dial("2001")
            client.says_back("before")
            lose(between)
            begun = time.monotonic()
            client.wait(b"CLR ")
            if not hold / 20 - 1 < time.monotonic() - begun < hold / 20 + 8:
                raise Failed(f"the call ended after {time.monotonic() - begun:.1f} seconds")
        here.wait_log(r"line down line=\d+")


def away(program: str) -> None:
    """A partner that is away for long is given up."""
    given_up(program, Between.leave)


def brief(program: str) -> None:
    """So is one whose port takes each connection and closes it at once."""
    def close_each(between: Between) -> None:
        between.port = free_port()
        between.cut()
    given_up(program, close_each, 3 * HOLD)


def silent(program: str) -> None:
    """A connection over which nothing comes any more is closed, and another one is made."""
    with both(program, says_back, Between, hold=400) as (here, there, between):
        with Client(here.terminals()) as client:
            client.dial("2001")
            client.says_back("before")
            between.delay = 3 * SILENCE / 20
            here.wait_log(r'line closed line=\d+ reason="silence"')
            between.delay = 0.0
            between.cut()
            client.says_back("after")


def other_file(program: str) -> None:
    """A service with another network file is no partner."""
    with Peer(says_back) as library, east(program, library.address) as there:
        to = f"127.0.0.1:{lines_port(there)}"
        with west(program, to, (), network(n2=19)):
            there.wait_log(r'refused from=127.0.0.1 reason="other network file"')
        with west(program, to) as here, Client(here.terminals()) as client:
            client.dial("2001")
            client.says_back("the same file")


def stranger(program: str) -> None:
    """One who is no partner takes nobody's place, whatever it says."""
    with both(program, says_back) as (here, there, _):
        with Client(here.terminals()) as client:
            client.dial("2001")
            client.says_back("before")
            with reach(f"127.0.0.1:{lines_port(there)}") as guest, contextlib.suppress(OSError):
                guest.sendall(some_octets(1_000_000, 15))
                read_all(guest)
            there.wait_log(r'refused from=127.0.0.1 reason="other protocol"')
            with reach(f"127.0.0.1:{lines_port(there)}") as guest:
                guest.settimeout(PATIENCE)
                expect(guest.recv(1), b"", "what one is told who says nothing")
            client.says_back("after")


# What is changed in the file of the west, and what is told of it.
BAD = (('here = "dte"', 'here = "dce"', 'terminals 0: pad = "desk" is elsewhere'),
       ('line = 5', 'line = 9', "line = 9 is no line of the network"),
       ('to = "findravolo"', 'to = "xott"', "to"),
       ('connect = "127.0.0.1:5001"', 'connect = "127.0.0.1:5001"\nlisten = "127.0.0.1:5002"', "it has both 'listen' and 'connect'"),
       ('connect = "127.0.0.1:5001"', 'listen = "0.0.0.0:5001"', "is beyond this machine, and allow has to say who may connect"),
       ('silence = 40', 'silence = 2', "silence = 2 has to be 3 at least"),
       ('pad = "desk"', 'pad = "gate"', 'terminals 0: pad = "gate" is elsewhere'),
       ('host = "archive"', 'host = "library"', 'caller 0: host = "library" is elsewhere'))


def checked(program: str) -> None:
    """What is refused of lines, and why."""
    good = HEAD + AT_DESK + FROM_ARCHIVE + line("east-west", "dte", 'connect = "127.0.0.1:5001"')
    with tempfile.TemporaryDirectory() as folder:
        written(folder, "network.toml", network())
        done = run(program, "check", "--service", written(folder, "good.toml", good))
        expect((done.returncode, done.stderr), (0, ""), "what a check of a good file ends with")
        expect(re.search(r"line 5 west east: dte here, connect 127\.0\.0\.1:5001\n", done.stdout) is None, False,
               "whether the line is told")
        for old, new, told in BAD:
            if old not in good:
                raise Failed(f"{old!r} is not in the file")
            done = run(program, "check", "--service", written(folder, "bad.toml", good.replace(old, new)))
            if done.returncode != 1 or told not in done.stdout:
                raise Failed(f"of {new!r} it is told {done.stdout!r}, with status {done.returncode}")


CASES = (cut, killed, away, brief, early, stops, silent, slow, by_octets, three, two, other_file, stranger, checked)
