"""How cases are played: by a program, or by `rt try`, which builds one without a proof."""
import contextlib
import re
import subprocess
import sys

from repository import CRATES

# After so many cases a line says how many were played, if there are more.
STEP = 50


def tell(text):
    """Says how far it has come."""
    print(text, file=sys.stderr, flush=True)


def play_by_try(played_cases, room):
    """Has `rt try` play the cases in a folder: what it prints, what it tells and its status, by their names; nothing if
    it built no program, and then it has said why."""
    (room / "cases").mkdir()
    files = {}
    tell(f"the program is built, in a minute or more; then it plays {len(played_cases)} cases, about one a second")
    for case in played_cases:
        network = files.setdefault(case.network, f"network{len(files)}")
        words = [{"network": network, "script": "{}"}.get(word, word) for word in case.words]
        (room / "cases" / case.name).write_bytes(case.script)
        (room / "cases" / f"{case.name}.args").write_text("".join(f"{word}\n" for word in words))
    given = []
    for text, network in files.items():
        (room / network).write_text(text)
        given += ["--data", f"{network}={room / network}"]
    words = ["rt", "try", *given, "--cases", f"{room}/cases"]
    ran = subprocess.run(words, cwd=CRATES / "x25net", stdin=subprocess.DEVNULL, capture_output=True)
    printed = dict(re.findall(rb"^== (\S+)\n((?:(?!== ).*\n)*)", ran.stdout, re.M))
    told = re.findall(rb"((?:(?!case=).*\n)*)case=(\S+) run=ended status=(\d+) .*\n", ran.stderr)
    if not told:
        sys.stderr.buffer.write(ran.stderr)
    return {name.decode(): (printed.get(name, b""), text, int(status)) for text, name, status in told}


def play_by(program, played_cases, room):
    """Has a program play the cases in a folder: what it prints, what it tells and its status, by their names."""
    played = {}
    for case in played_cases:
        if played_cases[STEP:] and len(played) % STEP == 0:
            tell(f"{len(played)} of {len(played_cases)} cases")
        (room / "network").write_text(case.network)
        (room / "script").write_bytes(case.script)
        played[case.name] = play_case(other_program(program, case.program), case, room)
    return played


def other_program(program, crate):
    """The program of another crate, as `rt ci` leaves it beside this one; this one if no crate is named."""
    other = program.parents[2] / crate / "out" / crate if crate else program
    if not other.exists():
        sys.exit(f"there is no {other}")
    return other


def play_case(program, case, room):
    """Has a program play a case in a folder: what it prints, what it tells and its status."""
    words = [program, *case.words]
    with open(case.device, "wb") if case.device else contextlib.nullcontext(subprocess.PIPE) as out:
        ran = subprocess.run(words, cwd=room, input=case.script, stdout=out, stderr=subprocess.PIPE, timeout=60)
    return ran.stdout or b"", ran.stderr, ran.returncode
