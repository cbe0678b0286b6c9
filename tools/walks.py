#!/usr/bin/env python3
"""Does what texts say as a new user would, each command as it stands: README's first section and the README of each folder
of services/.

  tools/walks.py PROGRAM [TEXT..]    PROGRAM is x25d; a TEXT is as README.md or services/equipment/README; left out: all

A command is a row `$ COMMAND` that is indented; the rows below it, up to an empty one, are what is then seen. Commands run in
a folder that has what they need of the repository, with the program. Those that serve run on until the end, which is Ctrl-C.
At a terminal a number is dialled until it answers, and the first of two equal rows is typed. Behind its command a comment
`# NUMBER and Return, TEXT and Return` says what is typed; with no row below, what is typed then comes back. README.md is done once more without a program: `rt` is then a stand-in
that holds back all output, as `rt try` does. All is done in a network of its own, where the system grants one, so that all
ports are free.
"""
import contextlib
import ctypes
import fcntl
import os
import pathlib
import re
import shlex
import shutil
import signal
import socket
import struct
import subprocess
import sys
import tempfile
import threading
import time

import repository
from repository import TOP
from serving import Client, Failed, expect, wait_until

README = "README.md"

# What a terminal is shown once the number that it has dialled answers.
ANSWERED = "COM"

# How long a command may take, in seconds.
PATIENCE = 30.0

# What a command needs of the repository.
NEEDED = ("tools", "services", "VERSION", "crates.txt", "crates/x25d/src/network.rt")

# Stands in for `rt`: it waits as if it built, then runs the program in a folder of its own, and hands on its output last.
# Told to end, it ends the program.
STAND_IN = """#!/usr/bin/env python3
import signal, subprocess, sys, tempfile, time
signal.signal(signal.SIGTERM, lambda number, _: sys.exit(128 + number))
words = sys.argv[1:]
if words[:2] != ["try", "--seconds"] or words[3] != "--":
    sys.exit(f"rt: {words}")
time.sleep(1)
with tempfile.TemporaryDirectory() as folder:
    ran = subprocess.run([%r, *words[4:]], cwd=folder, env={}, capture_output=True, text=True)
sys.stdout.write(ran.stdout)
sys.stderr.write(f"{ran.stderr}checked: ended status={ran.returncode}\\nrun=ended status={ran.returncode} runners=1 proved=no\\n")
sys.exit(ran.returncode != 0)
"""


# ---- what a text says


def said(name: str) -> list[tuple[str, list[str]]]:
    """The commands of a text, each with the rows that are then seen. Of README.md it is the first section that has any."""
    text = (TOP / name).read_text()
    if name == README:
        text = next(it for it in re.split(r"(?m)^## .*\n", text) if re.search(r"(?m)^    \$ ", it))
    commands, is_seen = [], False
    for row in text.split("\n"):
        if row.startswith("    $ "):
            commands.append((row[6:], []))
            is_seen = True
        elif is_seen and row.startswith("    "):
            commands[-1][1].append(row[4:])
        else:
            is_seen = False
    if not commands:
        raise Failed(f"{name} has no command")
    return commands


# ---- where it is done


def copy(folder: str) -> None:
    """Copies what commands need into a folder."""
    for name in NEEDED:
        there = pathlib.Path(folder, name)
        there.parent.mkdir(parents=True, exist_ok=True)
        if (TOP / name).is_dir():
            shutil.copytree(TOP / name, there, ignore=shutil.ignore_patterns("__pycache__", "*.log"))
        else:
            shutil.copy(TOP / name, there)


def put_program(folder: str, program: str) -> None:
    """Puts the program where `rt run` leaves it."""
    there = pathlib.Path(folder, "crates/x25d/out/x25d")
    there.parent.mkdir()
    shutil.copy(program, there)


def put_stand_in(folder: str, program: str) -> str:
    """Puts a stand-in for `rt` into a folder, and gives the path on which it is found."""
    stand_in = pathlib.Path(folder, "bin", "rt")
    stand_in.parent.mkdir()
    stand_in.write_text(STAND_IN % str(pathlib.Path(program).resolve()))
    stand_in.chmod(0o755)
    return f"{stand_in.parent}:{os.environ['PATH']}"


NEW_USER, NEW_NETWORK = 0x10000000, 0x40000000
SET_FLAGS, IS_UP, IS_RUNNING = 0x8914, 1, 64


def leave_network() -> None:
    """Gives this process a network of its own, in which it is alone. If the system does not let it, it stays where it is."""
    user, group = os.getuid(), os.getgid()
    system = ctypes.CDLL(None)
    if system.unshare(NEW_NETWORK):
        if system.unshare(NEW_USER | NEW_NETWORK):
            print("the system grants no network of its own: the ports of the texts have to be free", file=sys.stderr)
            return
        for name, text in (("setgroups", "deny"), ("uid_map", f"{user} {user} 1"), ("gid_map", f"{group} {group} 1")):
            pathlib.Path("/proc/self", name).write_text(text)
    with socket.socket(socket.AF_INET, socket.SOCK_DGRAM) as any_socket:
        fcntl.ioctl(any_socket, SET_FLAGS, struct.pack("16sh", b"lo", IS_UP | IS_RUNNING) + bytes(22))


# ---- how it is done


class Window:
    """A command in a window of its own, and what it has printed."""

    def __init__(self, command: str, folder: str, path: str):
        self.command, self.rows = command, []
        self.process = subprocess.Popen(["bash", "-c", f"exec {command}"], cwd=folder, env={**os.environ, "PATH": path},
                                        stdin=subprocess.DEVNULL, stdout=subprocess.PIPE, stderr=subprocess.PIPE, text=True)
        self.errors = []
        for stream, rows in ((self.process.stdout, self.rows), (self.process.stderr, self.errors)):
            threading.Thread(target=self.read, args=(stream, rows), daemon=True).start()

    @staticmethod
    def read(stream, rows: list[str]) -> None:
        for row in stream:
            rows.append(row.rstrip("\n"))

    def wait_up(self) -> None:
        """Waits until the command says that it is up, or has ended, which has to be well."""
        def is_known():
            return self.process.poll() is not None or any(it.startswith(("status  ", "listening ")) for it in self.rows)
        wait_until(is_known, f"the end of {self.command}, or that it is up,", PATIENCE)
        if self.process.poll() is not None:
            expect((self.process.returncode, self.errors), (0, []), f"the status of {self.command}, and its errors")

    def see(self, rows: list[str]) -> None:
        """The rows have to be what the command prints."""
        with contextlib.suppress(Failed):
            wait_until(lambda: self.rows[:len(rows)] == rows, "", 2)
        expect(self.rows[:len(rows)], rows, f"what {self.command} prints")

    def end(self) -> None:
        """Ctrl-C, if it runs on: it has to end within 10 seconds."""
        if self.process.poll() is None:
            self.process.send_signal(signal.SIGINT)
        try:
            self.process.wait(10)
        except subprocess.TimeoutExpired:
            self.process.kill()
            raise Failed(f"{self.command} goes on after Ctrl-C") from None
        if "Traceback" in "\n".join(self.errors):
            raise Failed(f"{self.command} ends with {self.errors}")


def at_terminal(command: str, rows: list[str]) -> None:
    """A terminal: what the rows say is typed and seen."""
    _, host, port, *_ = shlex.split(command, comments=True)
    typed = re.findall(r"(\S+) and Return", command)
    rows = rows or 2 * ["is anybody there"]
    with Client(f"{host}:{port}") as client:
        for text in typed:
            client.dial_until_answered(text) if text.isdecimal() else client.type(text)
        for place, row in enumerate(rows):
            if row.isdecimal():
                client.dial_until_answered(row)
            elif row != ANSWERED:
                if rows[place:place + 2] == 2 * [row]:
                    client.type(row)
                client.wait(f"{row}\r\n".encode(), patience=10)


def walk(name: str, program: str, is_built: bool = True) -> None:
    """Does what a text says."""
    with tempfile.TemporaryDirectory() as folder, contextlib.ExitStack() as stack:
        copy(folder)
        path = os.environ["PATH"]
        if is_built:
            put_program(folder, program)
        else:
            path = put_stand_in(folder, program)
        for command, rows in said(name):
            if command.startswith(("telnet ", "nc ")):
                at_terminal(command, rows)
                continue
            window = Window(command, folder, path)
            stack.callback(window.end)
            window.wait_up()
            window.see(rows)


def texts() -> list[str]:
    return [README, *sorted(str(it.relative_to(TOP)) for it in (TOP / "services").glob("*/README"))]


def main(words: list[str]) -> int:
    program, *names = words
    leave_network()
    failed = 0
    for name in names or texts():
        for is_built in (True, False) if name == README else (True,):
            begun, failure = time.monotonic(), None
            try:
                walk(name, program, is_built)
            except (Failed, OSError) as fault:
                failed, failure = 1, fault
            print(f"{name}{'' if is_built else ' without a program'}: {failure or 'as it says'}, "
                  f"{time.monotonic() - begun:.1f} s", flush=True)
    return failed


if __name__ == "__main__":
    sys.exit(main(repository.words_of(__doc__, 1, 100)))
