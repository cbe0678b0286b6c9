"""Cases of service files: what is refused, and how terminals are had by several tables."""
import re
import socket
import subprocess
import tempfile
import time

import repository
from serving import (PATIENCE, BuiltIn, Client, Failed, Filed, Peer, answers_lines, expect, reach, run,
                     wait_until, written)

SERVICES = repository.TOP / "services"

# A network with a PAD and a host, and how its terminals are had.
NETWORK = """[[node]]
name = "desk"
kind = "pad"
terminals = 2
[[node]]
name = "library"
kind = "host"
[[line]]
dte = "desk"
dce = "library"
"""
BINDING = """network = "network.toml"
[[terminals]]
pad = "desk"
listen = "127.0.0.1:7001"
"""

# What is changed in a binding, and what is told of it.
BAD = (("pad =", "pat =", "no key 'pat' is known here (did you mean 'pad'?)"),
       ("desk", "disk", 'terminals 0: pad = "disk" is no node (did you mean \'desk\'?)'),
       ("desk", "library", 'terminals 0: pad = "library" is no PAD'),
       ("127.0.0.1:7001", "localhost:7001", "has to be an IP address and a port"),
       ("127.0.0.1:7001", "0.0.0.0:7001", "is beyond this machine, and allow has to say who may connect"),
       ("[[terminals]]", "[[terminals]]\nlast = 2", "last = 2 is no terminal of 'desk' from first = 0 on"),
       ("[[terminals]]", "[[terminals]", "line 2"),
       ("[[terminals]]", "[capture]\n[[terminals]]", "capture: the key 'file' is missing"),
       ("[[terminals]]", '[web]\nlisten = "0.0.0.0:7080"\n[[terminals]]', "web: listen has to be an address of this machine"),
       ("network.toml", "none.toml", "the network file cannot be read"),
       ("", '[[service]]\nhost = "library"\n', "service 0: it has neither 'connect' nor 'builtin'"),
       ("", '[[caller]]\nhost = "library"\nlisten = "127.0.0.1:7001"\ncall = "1"\n', "stands in another table too"))


def words(program: str) -> None:
    """What the command words do."""
    with BuiltIn(program) as service, tempfile.TemporaryDirectory() as folder:
        ask_all(service, folder)


def ask_all(service: BuiltIn, folder: str) -> None:
    _, port = service.listen.rsplit(":", 1)
    network = written(folder, "network.toml", NETWORK)
    misspelled = written(folder, "misspelled.toml", NETWORK.replace("terminals", "terminal"))
    bound = written(folder, "bound.toml", BINDING)
    unbound = written(folder, "unbound.toml", BINDING.replace("desk", "disk"))
    for wanted, shown, *given in (
            (0, r"x25d \d+\.\d+\.\d+\n", "--version"),
            (0, r".*--listen.*--control.*", "--help"),
            (2, r".*an address is an IP address and a port.*", "--listen", "here"),
            (2, r".*unrecognized subcommand.*", "dial"),
            (2, r".*invalid value.*", "clear", "x"),
            (2, r".*required.*", "clear"),
            (1, rf"x25d: no socket at 127.0.0.1:{port}: .*", "--listen", service.listen, "--control", "127.0.0.1:0"),
            (1, r"x25d: no service answers at 127.0.0.1:1: .*", "status", "--control", "127.0.0.1:1"),
            (0, r"x25d .* up .*", "--control", service.control, "status"),
            (0, r".+\n", "check", "--network", network),
            (1, r"node 0 \(desk\): .*'terminals'.*\n", "check", "--network", misspelled),
            (1, r"x25d: the network file cannot be read: .*", "check", "--network", f"{folder}/none"),
            (0, r"(.+\n)+", "check", "--service", bound),
            (1, r'.*pad = "disk" is no node.*\n', "check", "--service", unbound),
            (1, r"x25d: the service file cannot be read: .*", "check", "--service", f"{folder}/none"),
            (2, r".*required.*", "check"),
            (2, r".*required.*", "serve"),
            (2, r".*cannot be used with.*", "check", "--service", bound, "--network", network)):
        done = run(service.program, *given)
        if done.returncode != wanted or not re.fullmatch(shown, done.stdout + done.stderr, re.DOTALL):
            raise Failed(f"{given} ended with {done.returncode} and printed {done.stdout + done.stderr!r}")


def bad_files(program: str) -> None:
    """A file that cannot be served is refused by `serve` as by `check`, before a socket is opened."""
    with tempfile.TemporaryDirectory() as folder:
        written(folder, "network.toml", NETWORK)
        for old, new, told in BAD:
            text = BINDING.replace(old, new, 1) if old else BINDING + new
            file = written(folder, "service.toml", text)
            for word in ("check", "serve"):
                done = run(program, word, "--service", file)
                expect(done.returncode, 1, f"the status of {word} with {new!r}")
                if told not in done.stdout + done.stderr or (word == "serve" and done.stdout):
                    raise Failed(f"{word} with {new!r} printed {done.stdout!r} and {done.stderr!r}")


TABLES = """network = "network.toml"
control = "127.0.0.1:0"
[[terminals]]
pad = "desk"
listen = "127.0.0.1:0"
last = 1
greeting = "Good morning."
[[terminals]]
pad = "desk"
listen = "127.0.0.1:0"
first = 2
last = 3
mode = "raw"
[[terminals]]
pad = "desk"
listen = "127.0.0.1:0"
first = 4
last = 4
idle = 30
[[terminals]]
pad = "desk"
listen = "127.0.0.1:0"
first = 5
allow = ["10.0.0.0/8", "::1/128"]
[[service]]
host = "echo"
builtin = "echo"
[[service]]
host = "time"
builtin = "time"
"""


def tables(program: str) -> None:
    """Each table has terminals of its own, a greeting, a mode, and says who may come."""
    network = (SERVICES / "first" / "network.toml").read_text()
    with Filed(program, network, TABLES, ("2001", "2002")) as service:
        greeted(service)
        raw(service)
        idle(service)
        stranger = reach(service.terminals(3))
        expect(received(stranger), b"", "what a stranger is told")
        service.stop()


def received(connection: socket.socket) -> bytes:
    """What comes up to the end, or to a reset."""
    connection.settimeout(PATIENCE)
    octets = b""
    try:
        while part := connection.recv(4096):
            octets += part
    except ConnectionResetError:
        pass
    connection.close()
    return octets


def greeted(service: Filed) -> None:
    with Client(service.terminals(0)) as first, Client(service.terminals(0)) as second:
        for client in (first, second):
            client.wait(b"Good morning.\r\n")
        with Client(service.terminals(0)) as third:
            third.wait_end()
        first.dial("2001")
        first.says_back("first")
        second.dial("2001")
        second.says_back("second")


def raw(service: Filed) -> None:
    """Every octet is a key, and nothing is said by the service itself: of 255 each comes back alone."""
    with socket.create_connection(service.terminals(1).rsplit(":", 1), timeout=PATIENCE) as client:
        client.sendall(b"set 2:0,5:0,6:0,13:0\r2001\r")
        time.sleep(0.5)
        sent = bytes([255, 253, 1, 255, 255, 0, 7]) + b"end\r"
        client.sendall(sent)
        seen = b""
        while not seen.endswith(b"end\r"):
            if not (part := client.recv(4096)):
                raise Failed(f"the raw client was closed after {seen!r}")
            seen += part
        if not seen.endswith(sent) or bytes([255]) in seen[:-len(sent)]:
            raise Failed(f"the raw client saw {seen!r}")


def idle(service: Filed) -> None:
    """After 1.5 seconds without an octet a client is told and closed; one that types stays."""
    with Client(service.terminals(2)) as client:
        client.wait(b"clears the call.\r\n")
        for _ in range(8):
            time.sleep(0.5)
            client.type("")
        begun = time.monotonic()
        client.wait_end()
        if not 1.0 < time.monotonic() - begun < 6:
            raise Failed(f"an idle client was closed after {time.monotonic() - begun:.1f} seconds")
    service.wait_log(r"idle port=\d+")


# ---- the examples of services/


def with_ports(text: str, **ports: int) -> str:
    """A service file of an example with ports that are free."""
    text = re.sub(r"127\.0\.0\.1:7\d\d\d", "127.0.0.1:0", text)
    for name, port in ports.items():
        text = text.replace(f"127.0.0.1:{name[1:]}", f"127.0.0.1:{port}")
    return re.sub(r"(?m)^log = .*\n", "", text)


def example(program: str, name: str, numbers: tuple[str, ...], **ports: int) -> Filed:
    folder = SERVICES / name
    return Filed(program, (folder / "network.toml").read_text(), with_ports((folder / "service.toml").read_text(), **ports),
                 numbers)


def free_port() -> int:
    """A port that was free a moment ago."""
    with socket.create_server(("127.0.0.1", 0)) as server:
        return server.getsockname()[1]


def first_example(program: str) -> None:
    with example(program, "first", ("2001", "2002")) as service, Client(service.terminals()) as client:
        client.dial("2001")
        client.says_back("hello")
        client.leave()
        client.type("2002")
        client.wait(b" UTC\r\n")
        client.wait(b"CLR DTE")
        service.stop()


class Program:
    """A program beside a service, in Python."""

    def __init__(self, *words: str):
        self.process = subprocess.Popen(["python3", *words], stdout=subprocess.PIPE, text=True)

    def wait_port(self, port: int) -> None:
        """Waits until it listens."""
        def listens():
            with socket.socket() as trial:
                return trial.connect_ex(("127.0.0.1", port)) == 0
        wait_until(listens, f"a program at port {port}")

    def __enter__(self):
        return self

    def __exit__(self, *_):
        self.process.kill()
        self.process.communicate()


def line_server(program: str) -> None:
    """A terminal dials a line server, another one a visitor at `nc -C`, or at what does as it."""
    port, folder = free_port(), SERVICES / "line_server"
    with Program(str(folder / "line_server.py"), str(port)) as server, Peer(answers_lines) as visitor:
        server.wait_port(port)
        _, visits = visitor.address.split(":")
        with example(program, "line_server", ("2001", "2002"), _8001=port, _8002=int(visits)) as service:
            with Client(service.terminals()) as client:
                client.wait(b"Dial 2001 for the library, 2002 for a visitor.\r\n")
                client.dial("2001")
                client.wait(b"Welcome, 1001. Which book? An empty line ends.\r\n")
                client.type("Emma")
                client.wait(b"emma: shelf 7\r\n")
                client.type("")
                client.wait(b"Good bye.\r\n")
                client.wait(b"CLR DTE")
                client.dial("2002")
                client.type("is anybody there")
                client.wait(b"you said is anybody there\r\n")
            service.stop()


def called_back(program: str) -> None:
    """A terminal dials, is cleared, and is called back."""
    port, folder = free_port(), SERVICES / "called_back"
    with example(program, "called_back", (), _8001=port) as service:
        caller = service.callers().split(":")[1]
        with Program(str(folder / "call_back.py"), str(port), caller) as server:
            server.wait_port(port)
            with Client(service.terminals()) as client:
                client.dial_until_answered("2001")
                client.wait(b"Which book? We call you back.\r\n")
                client.type("Walden")
                client.wait(b"CLR DTE")
                client.wait(b"Here is the library. You asked for Walden.\r\n")
                client.wait(b"Shall we keep it?\r\n")
                client.type("yes")
                expect(server.process.stdout.readline(), f"listening at 127.0.0.1 {port}\n", "what the program says first")
                expect(server.process.stdout.readline(), "yes\n", "what the program that called back was told")
        service.stop()


CASES = (words, bad_files, tables, first_example, line_server, called_back)
