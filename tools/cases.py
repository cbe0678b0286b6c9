"""The cases of examples/ and sessions/: what is played, and what the program must write.

A file of sessions/ has sessions, one after the other. Each is a line `=== TITLE`, then its parts, and an empty line. A
part is a line `--- NAME`, and the text below it:

  network    the network; a session without this part is played on the one of the session before it
  more       a text that is added to the network's
  lines      a number of lines, in place of a network: a switch that has so many, each with a host. The first host is
             `first` at the address 1001, the last one `last` at 2001
  words      the command words, in place of `sim --net network --script script`
  word       one command word more, by its octets, in hexadecimal
  program    the crate of another program, which is played in place of x25net
  device     what the output is written to; nothing is printed then
  script     the script, which the program finds in the file `script` and on its standard input
  octets     a script by its octets, in hexadecimal
  output     what is printed
  fault      what is told of a fault; the status is then 1
  status     another status
  restart    nodes, in place of what is printed: the script is played with a restart of each of them at each place,
             and each `check` has to print `check ok`

With several parts of one name the session is played with each of them, and all have to write the same. A `$` at the end
of a script's line shows a space before it, and is not played.
"""
import itertools
import sys
import typing

import repository
from repository import NETWORK, OUTPUT, SCRIPT, SESSIONS

PARTS = tuple("network more lines words word program device script octets output fault status restart".split())
USUAL = "sim --net network --script script"


class Case(typing.NamedTuple):
    """What is played, and what the program must write and end with."""

    name: str
    words: list
    network: str
    script: bytes
    printed: typing.Optional[bytes]  # nothing if only its checks are looked at
    told: bytes = b""
    status: int = 0
    program: str = ""  # another program than x25net
    device: str = ""  # what its output is written to

    def needs_a_program(self):
        """Whether `rt try` cannot play the case, or would play it too slowly."""
        has_octets = any(isinstance(word, bytes) for word in self.words)
        return self.printed is None or self.program or self.device or has_octets

    def is_usual(self):
        """Whether the program is called with a network and a script."""
        return self.words[:1] in (["sim"], ["run"]) and self.words[1:] == USUAL.split()[1:]


def all_cases():
    """All cases, those of the examples first."""
    return [*examples(), *sessions()]


def examples():
    """The cases of the examples."""
    for folder in repository.examples():
        network, script, printed = ((folder / name).read_text() for name in (NETWORK, SCRIPT, OUTPUT))
        for mode in ("sim", "run"):
            words = [mode, *USUAL.split()[1:]]
            yield Case(f"{folder.name}-{mode}", words, network, script.encode(), printed.encode())


def sessions():
    """The cases of the sessions."""
    for file in sorted(SESSIONS.iterdir()):
        network = ""
        for number, session in enumerate(read_sessions(file), 1):
            network = session.get("network", [network])[-1]
            for place, case in enumerate(cases_of(session, network)):
                yield case._replace(name=f"{file.name}-{number:02}-{place:03}")


def read_sessions(file):
    """The sessions of a file: of each the texts of its parts, by their names."""
    found = []
    for line in file.read_text().splitlines(keepends=True):
        mark, _, rest = line.rstrip("\n").partition(" ")
        if mark == "===":
            found.append({})
        elif mark != "---":
            texts[-1] += line
        elif rest in PARTS:
            texts = found[-1].setdefault(rest, [])
            texts.append("")
        else:
            sys.exit(f"{file}: no part is named {rest}")
    return found


def cases_of(session, network):
    """The cases of a session."""
    networks = [network + more for more in session.get("more", [""])]
    networks = [switch_of(int(lines)) for lines in session.get("lines", [])] or networks
    words = [text.split() for text in session.get("words", [USUAL])]
    words = [read + [bytes.fromhex(text) for text in session.get("word", [])] for read in words]
    scripts = [text.replace("$\n", "\n").encode() for text in session.get("script", [])]
    scripts += [bytes.fromhex(text) for text in session.get("octets", [])]
    nodes = "".join(session.get("restart", [])).split()
    if nodes:
        scripts = [it for script in scripts for it in with_restarts(script, nodes)]
    printed = None if nodes else last_text(session, "output")
    told = last_text(session, "fault")
    status = int(session.get("status", [1 if told else 0])[-1])
    program, device = ("".join(session.get(part, [])).strip() for part in ("program", "device"))
    for played_on, read, script in itertools.product(networks, words, scripts):
        yield Case("", read, played_on, script, printed, told, status, program, device)


def switch_of(lines):
    """The text of a network: a switch of so many lines, each with a host."""
    hosts = [("first", 1001), *((f"h{line}", 3000 + line) for line in range(1, lines - 1)), ("last", 2001)]
    text = '[[node]]\nname = "sw"\nkind = "switch"\n'
    for line, (host, address) in enumerate(hosts):
        text += f'[[node]]\nname = "{host}"\nkind = "host"\n'
        text += f'[[line]]\ndte = "{host}"\ndce = "sw"\naddress = "{address}"\n'
        text += f'[[route]]\nswitch = "sw"\nprefix = "{address}"\nline = {line}\n'
    return text


def last_text(session, name):
    """The text of a part without the empty line after a session; nothing if there is no such part."""
    text = session.get(name, [""])[-1].rstrip("\n")
    return f"{text}\n".encode() if text else b""


def with_restarts(script, nodes):
    """A script with a restart of each node at each place and a check after it, cut there and with the rest."""
    lines = script.splitlines(keepends=True)
    for place, node in itertools.product(range(len(lines) + 1), nodes):
        restarted = b"".join([*lines[:place], f"restart {node}\nflow\ncheck\n".encode()])
        yield restarted
        yield b"".join([restarted, *lines[place:], b"flow\ncheck\n"])
