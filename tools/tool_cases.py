"""Cases of what starts a service: tools/serve, the texts that a new user follows, and outputs that nobody reads."""
import contextlib
import os
import pathlib
import re
import signal
import socket
import subprocess
import sys
import tempfile
import time

import repository
import walks
from serving import PATIENCE, STARTED, Client, Failed, expect, reach, wait_until, written

TOOLS = repository.TOP / "tools"


# ---- outputs that nobody reads


def unread(*words: str) -> subprocess.CompletedProcess:
    """What a command tells if its output is a pipe that nobody reads."""
    reading, writing = os.pipe()
    os.close(reading)
    try:
        return subprocess.run(words, stdin=subprocess.DEVNULL, stdout=writing, stderr=subprocess.PIPE, text=True,
                              timeout=PATIENCE)
    finally:
        os.close(writing)


def tools_unread(_: str) -> None:
    """A tool whose output nobody reads ends without a word."""
    tools = [it for it in sorted(TOOLS.iterdir()) if it.is_file() and os.access(it, os.X_OK)]
    for words in (*([str(it), "--help"] for it in tools), [str(TOOLS / "list-definitions")]):
        expect(unread(*words).stderr, "", f"what {words} tells if nobody reads its output")


# ---- tools/serve

ANY_PORTS = ("--listen", "127.0.0.1:0", "--control", "127.0.0.1:0")


class Served:
    """A running tools/serve, in a folder that has what it needs of the repository."""

    def __init__(self, folder: str, path: str, *words: str, place: str = "."):
        self.folder, self.path, self.place = folder, path, place
        self.errors = tempfile.TemporaryFile("w+")
        self.process = subprocess.Popen(self.command(*words), cwd=pathlib.Path(folder, place), env={"PATH": path},
                                        stdin=subprocess.DEVNULL, stdout=subprocess.PIPE, stderr=self.errors, text=True)
        STARTED.append(self.process)

    def command(self, *words: str) -> list[str]:
        return [os.path.relpath("tools/serve", self.place), *words]

    def __enter__(self):
        return self

    def __exit__(self, *_):
        if self.process.poll() is None:
            self.process.send_signal(signal.SIGTERM)
        self.process.communicate()

    def ask(self, *words: str) -> subprocess.CompletedProcess:
        return subprocess.run(self.command(*words), cwd=pathlib.Path(self.folder, self.place), env={"PATH": self.path},
                              stdin=subprocess.DEVNULL, capture_output=True, text=True, timeout=PATIENCE)

    def said(self, form: str) -> str:
        """What the next line says, which is of this form."""
        line = self.process.stdout.readline()
        if not (found := re.fullmatch(form, line)):
            raise Failed(f"{line!r} is printed in place of {form!r}, with {self.told()!r}")
        return found[1] if found.groups() else line

    def control(self) -> str:
        return self.said(r"status     \S*tools/serve status --control (\S+)     stop  \S*tools/serve stop --control \S+\n")

    def told(self) -> str:
        file = self.errors.fileno()
        return os.pread(file, os.fstat(file).st_size, 0).decode()

    def ends(self, status: int) -> None:
        expect(self.process.wait(10), status, f"the status of tools/serve, which told {self.told()!r}")
        if "Traceback" in self.told():
            raise Failed(self.told())


@contextlib.contextmanager
def prepared(program: str, is_built: bool):
    """A folder that has what tools/serve needs, and the path for commands: the program is there, or `rt` builds it."""
    with tempfile.TemporaryDirectory() as folder:
        walks.copy(folder)
        if is_built:
            walks.put_program(folder, program)
        yield folder, os.environ["PATH"] if is_built else walks.put_stand_in(folder, program)


def is_gone(control: str) -> bool:
    try:
        reach(control).close()
    except ConnectionRefusedError:
        return True
    return False


def serves(program: str, is_built: bool) -> None:
    """What tools/serve says first, what it answers, that Ctrl-C and `stop` end it in order, and that a kill ends it."""
    with prepared(program, is_built) as (folder, path):
        for status, ends in ((0, lambda service, control: service.process.send_signal(signal.SIGINT)),
                             (0, lambda service, control: service.ask("stop", "--control", control)),
                             (-signal.SIGKILL, lambda service, control: service.process.kill())):
            with Served(folder, path, *ANY_PORTS) as service:
                listen = service.said(r"terminals  telnet (\S+ \d+)\n").replace(" ", ":")
                service.said(r"numbers    2001 echoes, .*\n")
                control = service.control()
                asked(service, listen, control)
                ends(service, control)
                service.ends(status)
                wait_until(lambda: is_gone(control), "the end of the service", 5)
                for line in ("attach port=0 ", "clear port=0", *(["stop", "stopped"] if status == 0 else [])):
                    if f" UTC {line}" not in service.told():
                        raise Failed(f"of the log it told {service.told()!r}")


def asked(service: Served, listen: str, control: str) -> None:
    at = ("--control", control)
    with Client(listen) as client:
        client.wait(b"clears the call.\r\n")
        status = service.ask("status", *at)
        expect((status.returncode, status.stdout[:5], status.stderr), (0, "x25d ", ""), "the status")
        expect(service.ask("clear", "0", *at).returncode, 0, "the status of a port that is cleared")
        client.wait_end()
    refused = service.ask("clear", "77", *at)
    expect((refused.returncode, refused.stderr), (1, "x25d: no client at port 77\n"), "what is told of a port without a client")


def serves_proved(program: str) -> None:
    """With a program, tools/serve has it serve."""
    serves(program, True)


def serves_unproved(program: str) -> None:
    """Without one, it has `rt try` build one, whose output comes at its end."""
    serves(program, False)


def serves_file(program: str) -> None:
    """Names of files are those of the user's folder, and a file's own log is written beside it."""
    for is_built in (True, False):
        with prepared(program, is_built) as (folder, path):
            place = "services/two_machines"
            for name in ("east", "west"):
                file = pathlib.Path(folder, place, f"{name}.toml")
                file.write_text(re.sub(r"(control|listen) = .*", r'\1 = "127.0.0.1:0"', file.read_text()))
            with Served(folder, path, "serve", "--service", "east.toml", place=place) as service:
                service.said(r"lines      tcp 127\.0\.0\.1 \d+\n")
                control = service.control()
                log = pathlib.Path(folder, place, "east.log")
                wait_until(lambda: "bind control=" in log.read_text(), "the first lines of the log")
                expect("bind control=" in service.told(), False, "that it tells what a file has")
                checked = service.ask("check", "--service", "west.toml")
                expect((checked.returncode, "terminals" in checked.stdout), (0, True), f"what check tells: {checked}")
                expect(service.ask("stop", "--control", control).returncode, 0, "the status of stop")
                service.ends(0)


def not_served(program: str) -> None:
    """What cannot be served is told at once, and not after a build; so are words that there are not."""
    with prepared(program, False) as (folder, path), socket.create_server(("127.0.0.1", 0)) as taken:
        port = taken.getsockname()[1]
        written(folder, "bad.toml", "[[terminals]\n")
        written(folder, "silent.toml", "")
        for status, told, words in (
                (1, rf"x25d: no socket at 127\.0\.0\.1:{port}: Address already in use\n", ("--listen", f"127.0.0.1:{port}")),
                (1, r"x25d: the service file cannot be read: No such file or directory\n", ("serve", "--service", "none")),
                (1, r"x25d: the service file is no TOML: .*\n", ("serve", "--service", "bad.toml")),
                (1, r"x25d: silent\.toml has no log, .*\n", ("serve", "--service", "silent.toml")),
                (1, r"x25d: no service answers at 127\.0\.0\.1:1: Connection refused\n", ("stop", "--control", "127.0.0.1:1")),
                (2, r"(?s)Serves an X\.25 network.*", ("dial",)), (2, r"(?s)Serves an X\.25 network.*", ("serve",)),
                (2, r"(?s)Serves an X\.25 network.*", ("clear", "x")), (2, r"(?s)Serves an X\.25 network.*", ("--listen",))):
            with Served(folder, path, *words) as service:
                service.ends(status)
                if not re.fullmatch(told, service.told()):
                    raise Failed(f"{words} told {service.told()!r}")


def not_built(program: str) -> None:
    """Without `rt`, and if it builds nothing, tools/serve says so; Ctrl-C while it builds leaves nothing behind."""
    with prepared(program, False) as (folder, path):
        stand_in = pathlib.Path(folder, "bin", "rt")
        for text, told in (("#!/bin/sh\necho an error >&2\nexit 1\n", "an error\n"), (None, "install the Rattle toolchain")):
            stand_in.write_text(text) if text else stand_in.unlink()
            with Served(folder, f"{stand_in.parent}:{python_path(folder)}", *ANY_PORTS) as service:
                service.ends(2)
                if told not in service.told():
                    raise Failed(f"it told {service.told()!r}")
        stand_in.write_text('#!/bin/sh\nsleep 60 &\necho $! > "$(dirname "$0")/builds"\nwait\n')
        stand_in.chmod(0o755)
        with Served(folder, path, *ANY_PORTS) as service:
            builds = stand_in.with_name("builds")
            wait_until(lambda: builds.exists() and builds.read_text().endswith("\n"), "the build")
            service.process.send_signal(signal.SIGINT)
            service.ends(128 + signal.SIGINT)
            wait_until(lambda: not pathlib.Path("/proc", builds.read_text().strip(), "cmdline").exists() or
                       not pathlib.Path("/proc", builds.read_text().strip(), "cmdline").read_bytes(), "the end of the build", 5)


def python_path(folder: str) -> str:
    """A path on which there is python3, and no `rt`."""
    there = pathlib.Path(folder, "python")
    there.mkdir(exist_ok=True)
    with contextlib.suppress(FileExistsError):
        (there / "python3").symlink_to(sys.executable)
    return f"{there}:/usr/bin:/bin"


def serve_unread(program: str) -> None:
    """If nobody reads its output, tools/serve stops the service."""
    with prepared(program, True) as (folder, _):
        done = unread(str(pathlib.Path(folder, "tools", "serve")), *ANY_PORTS)
        told = [it for it in done.stderr.split("\n") if it and " UTC " not in it]
        expect(told, [], "what is told if nobody reads the output")
        control = re.search(r"bind control=(\S+)", done.stderr)
        expect(control is None or is_gone(control[1]), True, "that the service is gone")


# ---- what texts say


def texts(program: str) -> None:
    """README's first section and the README of each folder of services/, as they stand."""
    ran = subprocess.run([sys.executable, str(TOOLS / "walks.py"), program], stdin=subprocess.DEVNULL, capture_output=True,
                         text=True, timeout=4 * PATIENCE)
    if ran.returncode:
        raise Failed(ran.stdout + ran.stderr)


CASES = (texts, serves_proved, serves_unproved, serves_file, not_served, not_built, serve_unread, tools_unread)
