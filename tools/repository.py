"""What the tools share: where the repository is, its crates and programs, and the words that a tool is given."""
import atexit
import os
import pathlib
import re
import select
import sys

TOP = pathlib.Path(__file__).resolve().parent.parent
CRATES = TOP / "crates"
EXAMPLES = TOP / "examples"
SESSIONS = TOP / "sessions"

# The files of an example.
NETWORK, SCRIPT, OUTPUT, TRANSCRIPT = "network.toml", "script", "output", "transcript"


def words_of(text, least=0, most=0, options=()):
    """The words that a tool is given, at least and at most so many besides these options. Asked for help, or given other
    words, the tool says the text at its head and ends."""
    words = sys.argv[1:]
    if set(words) & {"--help", "-h"}:
        print(text.strip())
        sys.exit(0)
    given = [it for it in words if it not in options]
    if not least <= len(given) <= most or any(it.startswith("--") for it in given):
        sys.exit(text.strip())
    return words


def program(crate="x25net"):
    """Where `rt run` and `rt ci` leave the program of a crate."""
    return CRATES / crate / "out" / crate


def lines_of_crates():
    """The lines of crates.txt without comments."""
    return [it.split("#")[0] for it in (TOP / "crates.txt").read_text().split("\n")]


def crates():
    """The names of all crates, in the order of crates.txt."""
    return [it.split(":")[0].split()[0] for it in lines_of_crates() if ":" in it]


def libraries():
    """The libraries that each crate lists."""
    lines = [it.split(":") for it in lines_of_crates() if ":" in it]
    return {head.split()[0]: names.split() for head, names in lines}


def layers():
    """The headings of crates.txt, each with its crates."""
    found = []
    for line in (TOP / "crates.txt").read_text().split("\n"):
        if line.startswith("# "):
            found.append((line[2:], []))
        elif ":" in line:
            found[-1][1].append(line.split(":")[0])
    return [(head, names) for head, names in found if names]


def examples():
    """The folders of the examples."""
    return sorted(EXAMPLES.iterdir())


def comment_at_head(file):
    """The comment at the head of a file of definitions."""
    head = re.match(r"(?:--.*\n)*", file.read_text())[0]
    return " ".join(line[2:].strip() for line in head.splitlines())


def version():
    """The version, which one file has."""
    return (TOP / "VERSION").read_text().strip()


# ---- a tool whose output nobody reads any more, as behind `head`, ends without a word


def is_unread():
    """Whether the output is a pipe that nobody reads."""
    output = select.poll()
    output.register(1, select.POLLOUT)
    return any(event & select.POLLERR for _, event in output.poll(0))


def drop_output():
    """What is left of the output goes nowhere."""
    os.dup2(os.open(os.devnull, os.O_WRONLY), 1)


def tell_fault(kind, fault, trace):
    """Tells of a fault that ends a tool, but of that one."""
    if issubclass(kind, BrokenPipeError) and is_unread():
        drop_output()
    else:
        sys.__excepthook__(kind, fault, trace)


def write_rest():
    """Writes what is left of the output as a tool ends."""
    try:
        sys.stdout.flush()
    except BrokenPipeError:
        drop_output()


sys.excepthook = tell_fault
atexit.register(write_rest)
