"""Cases of captures: what a service writes of the frames that pass, as the definition of pcapng has it."""
import contextlib
import os
import pathlib
import re
import struct
import subprocess
import sys
import tempfile
import time
from typing import NamedTuple

import bridge_cases
import line_cases
import repository
from serving import (Client, Failed, Filed, Peer, Running, called, digest, expect, pour, read_all, says_back,
                     some_octets, tells_digest, wait_until, written)

# The kinds of blocks, the number that tells the order of a file's octets, and the type of an interface whose packets say
# themselves how they are to be read.
SECTION, INTERFACE, PACKET = 0x0A0D0D0A, 1, 6
ORDER, UPPER = 0x1A2B3C4D, 252

# What stands before a frame: how it is to be read, its direction, and the end.
READER, DIRECTION, LAST = 12, 35, 0

UNNUMBERED = {0x2F: "SABM", 0x63: "UA"}
PACKETS = {0x0B: "call", 0x0F: "accepted", 0x13: "clear", 0x17: "cleared"}

# What a terminal's call brings on each line on its way, from the DTE and from the DCE.
OF_CALL = {True: {"SABM", "call", "data", "clear"}, False: {"UA", "accepted", "data", "cleared"}}

# How many octets go over a call so that a capture of two files of a MiB goes round.
MUCH = 700_000


class Frame(NamedTuple):
    """A frame of a capture."""
    micros: int
    line: int
    from_dte: bool
    octets: bytes

    def name(self) -> str:
        control = self.octets[1]
        if control & 1:
            return UNNUMBERED.get(control & 0xEF, "supervisory")
        kind = self.octets[4]
        return PACKETS.get(kind, "other") if kind & 1 else "data"


def blocks(octets: bytes) -> list[tuple[int, bytes]]:
    """The kind and the body of each block of a capture, all of which have to be whole."""
    found, place = [], 0
    while place < len(octets):
        kind, length = struct.unpack_from("<II", octets.ljust(place + 8, b"\0"), place)
        if length % 4 or length < 12 or place + length > len(octets):
            raise Failed(f"a block of kind {kind} and {length} octets stands at {place} of {len(octets)}")
        expect(struct.unpack_from("<I", octets, place + length - 4), (length,), "the length at the end of a block")
        found.append((kind, octets[place + 8:place + length - 4]))
        place += length
    return found


def frame_in(kind: int, body: bytes) -> Frame:
    """The frame in a block."""
    interface, high, low, kept, size = struct.unpack_from("<5I", body)
    expect((kind, interface, kept), (PACKET, 0, size), "the head of a block with a packet")
    packet, options = body[20:20 + kept], body[20 + kept + -kept % 4:]
    tags, place = {}, 0
    while LAST not in tags:
        tag, length = struct.unpack_from(">HH", packet, place)
        tags[tag] = packet[place + 4:place + 4 + length]
        place += 4 + length
    expect(tags[READER], b"lapb", "how a frame is to be read")
    option, length = struct.unpack_from("<HH", options)
    comment = re.fullmatch(rb"line (\d+)", options[4:4 + length])
    if option != 1 or not comment:
        raise Failed(f"a packet has the options {options!r}")
    return Frame(high << 32 | low, int(comment[1]), int.from_bytes(tags[DIRECTION], "big") == 0, packet[place:])


def frames_in(path: str) -> list[Frame]:
    """The frames of a capture."""
    (first, section), (second, interface), *packets = blocks(pathlib.Path(path).read_bytes())
    expect((first, *struct.unpack("<IHHq", section)), (SECTION, ORDER, 1, 0, -1), "the head of a section")
    expect((second, *struct.unpack("<HHI", interface)), (INTERFACE, UPPER, 0, 0), "the interface")
    frames = [frame_in(kind, body) for kind, body in packets]
    times = [frame.micros for frame in frames]
    expect(times, sorted(times), "the times of frames")
    return frames


class Captured(Filed):
    """A service that captures into a folder, which stays."""

    def __init__(self, program: str, folder: str, network: str, service: str, numbers: tuple[str, ...] = ()):
        self.numbers, self.network = numbers, written(folder, "network.toml", network)
        Running.__init__(self, program, "serve", "--service", written(folder, "service.toml", service))


def capture(size: int = 1, files: int = 4) -> str:
    """The table of a capture."""
    return f'[capture]\nfile = "x25.pcapng"\nsize = {size}\nfiles = {files}\n'


def call_captured(program: str) -> None:
    """A capture has what a terminal's call brings on each line, both ways, from the start of the nodes to the end. Each
    start of the service begins the next file."""
    begun = time.time()
    with contextlib.ExitStack() as kept:
        folder = kept.enter_context(tempfile.TemporaryDirectory())
        library = kept.enter_context(Peer(says_back))
        there = kept.enter_context(line_cases.east(program, library.address))
        to_there = line_cases.line("east-west", "dte", f'connect = "127.0.0.1:{line_cases.lines_port(there)}"')
        text = line_cases.HEAD + line_cases.AT_DESK + to_there + capture()
        here = kept.enter_context(Captured(program, folder, line_cases.network(), text))
        with Client(here.terminals()) as client:
            client.dial_until_answered("2001")
            client.says_back("hello")
            client.leave()
        here.stop()
        frames = frames_in(f"{folder}/x25.pcapng")
        for line in ("desk", "east-west"):
            number = line_cases.LINES.index(line)
            for from_dte, wanted in OF_CALL.items():
                names = {frame.name() for frame in frames if (frame.line, frame.from_dte) == (number, from_dte)}
                expect(wanted - names, set(), f"what the {'DTE' if from_dte else 'DCE'} of line {number} did not send")
        if not begun <= frames[0].micros / 1e6 <= frames[-1].micros / 1e6 <= time.time():
            raise Failed(f"the first frame is of {frames[0].micros} and the last of {frames[-1].micros}")
        picture = drawn(f"{folder}/x25.pcapng", here.network)
        for words in ("SABM", "UA", "Call Request 2001", "Call Connected", "Clear Request 0 0", "Clear Confirmation"):
            expect(words in picture, True, f"whether the ladder has {words!r}")
        with Captured(program, folder, line_cases.network(), text) as again:
            wait_until(lambda: os.path.exists(f"{folder}/x25.1.pcapng"), "the second file")
            again.stop()
        expect(frames_in(f"{folder}/x25.pcapng"), frames, "the first file after a second start")


def drawn(path: str, network: str) -> str:
    """The ladder of a capture."""
    ladder = str(repository.TOP / "tools" / "ladder")
    done = subprocess.run([sys.executable, ladder, path, network], capture_output=True, text=True, timeout=60)
    expect((done.returncode, done.stderr), (0, ""), "what tools/ladder ends with")
    return done.stdout


def files_go_round(program: str) -> None:
    """A capture of two files of a MiB each: the next one begins once one is full, and then the first one anew."""
    with tempfile.TemporaryDirectory() as folder, Peer(tells_digest) as library:
        text = bridge_cases.bindings(library.address, rest=capture(files=2))
        with Captured(program, folder, bridge_cases.network(), text, ("2001",)) as service:
            octets = some_octets(MUCH, 21)
            for _ in range(2):
                with called(service.callers()) as call:
                    pour(call, octets)
                    expect(read_all(call).decode(), f"{len(octets)} {digest(octets)}\n", "what the service tells")
            service.stop()
        names = [f"{folder}/x25.pcapng", f"{folder}/x25.1.pcapng"]
        expect(sorted(os.listdir(folder)), ["network.toml", "service.toml", "x25.1.pcapng", "x25.pcapng"], "the files")
        old, new = sorted((frames_in(name) for name in names), key=lambda frames: frames[0].micros)
        if old[-1].micros > new[0].micros:
            raise Failed("a file begins before the one before it ends")
        sizes = sorted(os.path.getsize(name) for name in names)
        if not 1 << 20 <= sizes[1] < (1 << 20) + (1 << 17):
            raise Failed(f"the files have {sizes} octets")


def full_disk(program: str) -> None:
    """A capture that cannot be written ends, with a line in the log. Calls go on."""
    with tempfile.TemporaryDirectory() as folder, Peer(says_back) as library:
        os.symlink("/dev/full", f"{folder}/x25.pcapng")
        text = bridge_cases.bindings(library.address, rest=capture(files=1))
        with Captured(program, folder, bridge_cases.network(), text, ("2001",)) as service:
            with Client(service.terminals()) as client:
                client.dial("2001")
                service.wait_log(r'capture ended reason=".+"')
                client.says_back("after the end of the capture")
            service.stop()


CASES = (files_go_round, call_captured, full_disk)
