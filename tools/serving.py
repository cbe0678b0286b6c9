"""A running service, its clients, and programs that it connects to: what the cases of `tools/play-service` use."""
import contextlib
import hashlib
import os
import re
import socket
import struct
import subprocess
import tempfile
import threading
import time

IAC, DONT, DO, WONT, WILL, SB, BRK, SE = 255, 254, 253, 252, 251, 250, 243, 240
ECHO, SUPPRESS_GO_AHEAD = 1, 3
PATIENCE = 30.0

# The services that were started.
STARTED: list[subprocess.Popen] = []

# The PAD's settings at which it shows only what the other end says, and sends what is typed at once.
PLAINLY = "2:0,5:0,6:0,13:0"


class Failed(Exception):
    """What a case saw, and should not have."""


def expect(seen, wanted, what: str) -> None:
    if seen != wanted:
        raise Failed(f"{what}: {seen!r} was seen, {wanted!r} is wanted")


def wait_until(holds, what: str, patience: float = PATIENCE):
    """Asks again and again until something is true, and gives it."""
    limit = time.monotonic() + patience
    while not (found := holds()):
        if time.monotonic() > limit:
            raise Failed(f"{what} did not come within {patience:.0f} seconds")
        time.sleep(0.05)
    return found


def reach(address: str) -> socket.socket:
    host, port = address.rsplit(":", 1)
    return socket.create_connection((host, int(port)), timeout=PATIENCE)


def run(*words: str) -> subprocess.CompletedProcess:
    return subprocess.run(words, capture_output=True, text=True, timeout=PATIENCE)


def digest(octets: bytes) -> str:
    return hashlib.sha256(octets).hexdigest()


def some_octets(count: int, seed: int) -> bytes:
    """So many octets, all values among them, that are the same each time."""
    block = b"".join(hashlib.sha256(b"%d %d" % (seed, number)).digest() for number in range(128))
    return (block * (count // len(block) + 1))[:count]


def written(folder: str, name: str, text: str) -> str:
    """The name of a file with this text."""
    with open(f"{folder}/{name}", "w") as file:
        file.write(text)
    return file.name


class Running:
    """A running service, and its log."""

    def __init__(self, program: str, *words: str):
        self.program, self.log = program, tempfile.TemporaryFile("w+")
        self.process = subprocess.Popen([program, *words], stdout=subprocess.PIPE, stderr=self.log, text=True)
        STARTED.append(self.process)
        try:
            self.first = self.first_lines()
            self.control = self.said(r"status     x25d status --control (127\.0\.0\.1:\d+)     stop  .*\n")
            self.wait_links()
        except BaseException:
            self.__exit__()
            raise

    def first_lines(self) -> list[str]:
        """The lines that it prints first: the one that begins with `status` is the last."""
        lines = []
        while not lines or not lines[-1].startswith("status"):
            lines.append(self.process.stdout.readline())
            if not lines[-1]:
                raise Failed(f"it printed {lines} and ended: {''.join(self.told())!r}")
        return lines

    def said(self, form: str, place: int = 0) -> str:
        """What the first lines of this form say, of which this one counts."""
        found = [match.group(1) for line in self.first if (match := re.fullmatch(form, line))]
        if place >= len(found):
            raise Failed(f"the first lines are {self.first}")
        return found[place]

    def wait_links(self) -> None:
        """Waits until the links of the network are set up."""

    def told(self) -> list[str]:
        """The whole lines of its log. The service writes at the place where the file is, so that is not moved."""
        file = self.log.fileno()
        return os.pread(file, os.fstat(file).st_size, 0).decode().rpartition("\n")[0].splitlines()

    def lines(self) -> list[str]:
        """The lines of its log, without their times."""
        lines = self.told()
        for line in lines:
            if not re.match(r"20\d\d-\d\d-\d\d \d\d:\d\d:\d\d UTC [a-z]", line):
                raise Failed(f"a line of the log is {line!r}")
        return [line[24:] for line in lines]

    def wait_log(self, form: str) -> str:
        """Waits for a line of the log of this form, and gives it."""
        def found():
            return next((line for line in self.lines() if re.fullmatch(form, line)), None)
        return wait_until(found, f"the line {form!r} of the log")

    def wait_status(self, line: str) -> None:
        wait_until(lambda: line in self.ask("status"), f"{line!r} in the status")

    def __enter__(self):
        return self

    def __exit__(self, *_):
        if self.process.poll() is None:
            self.process.kill()
        self.process.communicate()

    def ask(self, *words: str, status: int = 0) -> str:
        done = run(self.program, *words, "--control", self.control)
        if done.returncode != status:
            raise Failed(f"{words} ended with {done.returncode}: {done.stderr}")
        return done.stdout

    def stop(self) -> None:
        """Stops it by its own word, which has to be done within 10 seconds."""
        begun = time.monotonic()
        self.ask("stop")
        if time.monotonic() - begun > 10:
            raise Failed("stopping took longer than 10 s")
        expect(self.process.wait(timeout=PATIENCE), 0, "the status that the service ended with")

    def resident(self) -> int:
        """How many kilobytes of memory it has."""
        with open(f"/proc/{self.process.pid}/status") as status:
            return int(re.search(r"VmRSS:\s+(\d+)", status.read()).group(1))


class BuiltIn(Running):
    """A service of the built-in network."""

    def __init__(self, program: str):
        super().__init__(program, "--listen", "127.0.0.1:0", "--control", "127.0.0.1:0")

    def first_lines(self) -> list[str]:
        lines = super().first_lines()
        self.listen = re.sub(r"terminals  telnet (\S+) (\d+)\n", r"\1:\2", lines[0])
        return lines

    def wait_links(self) -> None:
        for number in ("2001", "2002"):
            with Client(self.listen) as client:
                client.wait(b"clears the call.\r\n")
                client.dial_until_answered(number)
            self.wait_status("port 0 free")


class Filed(Running):
    """A service of a service file and its network. Its ports are those that the system chooses."""

    def __init__(self, program: str, network: str, service: str, numbers: tuple[str, ...] = ()):
        self.numbers = numbers
        with tempfile.TemporaryDirectory() as folder:
            written(folder, "network.toml", network)
            file = written(folder, "service.toml", service)
            super().__init__(program, "serve", "--service", file)

    def terminals(self, place: int = 0) -> str:
        return self.said(r"terminals  (?:telnet|raw) (\S+ \d+)\n", place).replace(" ", ":")

    def callers(self, place: int = 0) -> str:
        return self.said(r"callers    tcp (\S+ \d+)\n", place).replace(" ", ":")

    def wait_links(self) -> None:
        """Dials each number until it answers."""
        for number in self.numbers:
            with Client(self.terminals()) as client:
                client.dial_until_answered(number)
            self.wait_status("port 0 free")


class Client:
    """A client of telnet: the text that it was shown, and the commands that it was sent."""

    def __init__(self, address: str):
        self.socket = reach(address)
        self.socket.settimeout(0.05)
        self.text, self.commands, self.rest, self.ended = b"", [], b"", False

    def __enter__(self):
        return self

    def __exit__(self, *_):
        self.socket.close()

    def read(self) -> None:
        """Reads what is there, as RFC 854 has it."""
        try:
            octets = self.socket.recv(65536)
        except TimeoutError:
            return
        except ConnectionResetError:
            octets = b""
        self.ended = self.ended or not octets
        self.rest += octets
        while self.rest:
            first = self.rest[0]
            size = 1
            if first == IAC:
                size = 3 if len(self.rest) > 1 and WILL <= self.rest[1] <= DONT else 2
            elif first == 13:
                size = 2
            if len(self.rest) < size:
                return
            whole, self.rest = self.rest[:size], self.rest[size:]
            if first == IAC and whole[1] != IAC:
                self.commands.append(whole[1:])
            elif whole == b"\r\0":
                self.text += b"\r"
            elif first == 13 and whole[1] != 10:
                raise Failed(f"CR and then {whole[1]}")
            else:
                self.text += whole[:1] if first == IAC else whole

    def wait(self, *texts: bytes, patience: float = PATIENCE) -> bytes:
        """Waits until one of these texts is shown, and gives what was shown up to its end."""
        limit = time.monotonic() + patience
        wanted = re.compile(b"|".join(re.escape(text) for text in texts))
        while not (found := wanted.search(self.text)):
            if self.ended or time.monotonic() > limit:
                raise Failed(f"{texts} was not shown, but {self.text[-200:]!r}")
            self.read()
        seen, self.text = self.text[:found.end()], self.text[found.end():]
        return seen

    def wait_end(self) -> None:
        limit = time.monotonic() + PATIENCE
        while not self.ended:
            if time.monotonic() > limit:
                raise Failed("the connection was not closed")
            self.read()

    def send(self, octets: bytes) -> None:
        self.socket.settimeout(PATIENCE)
        self.socket.sendall(octets)
        self.socket.settimeout(0.05)

    def type(self, line: str) -> None:
        self.send(line.encode() + b"\r\0")

    def dial(self, number: str) -> None:
        self.type(number)
        self.wait(b"COM\r\n")

    def is_answered(self, number: str) -> bool:
        self.type(number)
        cleared = [b"CLR " + bytes([letter]) for letter in b"DEINOR"]
        return self.wait(b"COM\r\n", *cleared).endswith(b"COM\r\n")

    def dial_until_answered(self, number: str) -> None:
        limit = time.monotonic() + PATIENCE
        while not self.is_answered(number):
            if time.monotonic() > limit:
                raise Failed(f"{number} does not answer")
            time.sleep(0.1)

    def leave(self) -> None:
        """Clears the call at the terminal."""
        self.send(b"\x10")
        self.type("clr")
        self.wait(b"CLR CONF")

    def dial_plainly(self, number: str, settings: str = PLAINLY) -> None:
        """Dials, and sets parameters so that only what the other end says is shown. What is shown next is a CR."""
        self.dial(number)
        self.send(b"\x10")
        self.type("set " + settings)
        self.type("ready")
        self.wait(b"ready")

    def says_back(self, line: str) -> None:
        """A line comes back from the service that echoes: once as it is typed, and once as it is said."""
        self.type(line)
        self.wait(line.encode())
        self.wait(line.encode())



class Peer:
    """A TCP service of this machine. Each of its connections is handled in a thread of its own."""

    def __init__(self, handle, backlog: int = 64):
        self.handle, self.accepted, self.tasks = handle, 0, []
        self.socket = socket.create_server(("127.0.0.1", 0), backlog=backlog)
        self.address = "%s:%d" % self.socket.getsockname()
        threading.Thread(target=self.accept, daemon=True).start()

    def accept(self) -> None:
        with contextlib.suppress(OSError):
            while True:
                connection, _ = self.socket.accept()
                connection.settimeout(2 * PATIENCE)
                self.accepted += 1
                threading.Thread(target=self.serve, args=(connection,), daemon=True).start()

    def serve(self, connection: socket.socket) -> None:
        with connection, contextlib.suppress(OSError):
            self.handle(connection)

    def __enter__(self):
        return self

    def __exit__(self, *_):
        self.socket.close()


def read_all(connection: socket.socket) -> bytes:
    """All octets up to the end of the other side."""
    parts = []
    while part := connection.recv(65536):
        parts.append(part)
    return b"".join(parts)


def says_back(connection: socket.socket) -> None:
    while part := connection.recv(65536):
        connection.sendall(part)


def tells_digest(connection: socket.socket) -> None:
    """Takes all, and then tells how many octets there were, and their digest."""
    octets = read_all(connection)
    connection.sendall(f"{len(octets)} {digest(octets)}\n".encode())


def answers_lines(connection: socket.socket) -> None:
    with connection.makefile("rwb") as lines:
        for line in lines:
            lines.write(b"you said " + line)
            lines.flush()


def never_reads(connection: socket.socket) -> None:
    connection.sendall(b"I do not read.\r\n")
    time.sleep(2 * PATIENCE)


def pours(octets: bytes):
    """A service that says these octets, ends its side and takes all that comes."""
    def handle(connection: socket.socket) -> None:
        connection.sendall(octets)
        connection.shutdown(socket.SHUT_WR)
        read_all(connection)
    return handle


def swaps(octets: bytes, seen: list):
    """A service that says these octets and takes others at the same time: their digest is added to what was seen."""
    def handle(connection: socket.socket) -> None:
        sender = threading.Thread(target=pour, args=(connection, octets), daemon=True)
        sender.start()
        seen.append(digest(read_all(connection)))
        sender.join()
    return handle


def pour(connection: socket.socket, octets: bytes) -> None:
    """Says these octets and ends this side."""
    with contextlib.suppress(OSError):
        connection.sendall(octets)
        connection.shutdown(socket.SHUT_WR)


def called(address: str) -> socket.socket:
    """A connection to a port whose connections are calls."""
    connection = reach(address)
    connection.settimeout(2 * PATIENCE)
    return connection


def break_off(connection: socket.socket) -> None:
    """Ends a connection as the system does for a program that is killed in the middle: by a reset."""
    connection.setsockopt(socket.SOL_SOCKET, socket.SO_LINGER, struct.pack("ii", 1, 0))
    connection.close()
