"""Cases of the built-in network: what users at terminals see."""
import contextlib
import re
import socket
import threading
import time

from serving import (BRK, DO, DONT, ECHO, IAC, SB, SE, SUPPRESS_GO_AHEAD, WILL, WONT, BuiltIn, Client, Failed,
                     break_off, expect)

# How many octets are sent at once, about.
MUCH = 1_000_000

# How long much may take.
LONG = 120


def first_minute(service: BuiltIn) -> None:
    expect(service.first[1], "numbers    2001 echoes, 2002 tells the time, 2003 is your own service on 127.0.0.1:8001\n",
           "the second line")
    with Client(service.listen) as client:
        client.wait(b"Terminal 0 of desk. ")
        client.wait(b"clears the call.\r\n")
        client.dial("2001")
        client.says_back("hello")
        client.send(b"\x10")
        client.type("clr")
        client.wait(b"CLR CONF")
        client.type("2002")
        client.wait(b"COM")
        shown = client.wait(b" UTC\r\n")
        if not re.search(rb"20\d\d-\d\d-\d\d \d\d:\d\d:\d\d UTC", shown):
            raise Failed(f"the time is {shown!r}")
        client.wait(b"CLR DTE")
        client.type("9999")
        client.wait(b"CLR NP")


def options(service: BuiltIn) -> None:
    with Client(service.listen) as client:
        client.wait(b"clears the call.\r\n")
        client.send(bytes([IAC, DO, ECHO, IAC, DO, SUPPRESS_GO_AHEAD]))
        client.send(bytes([IAC, DO, 24, IAC, DO, 24, IAC, WILL, 31, IAC, WILL, 31]))
        client.send(bytes([IAC, WILL, SUPPRESS_GO_AHEAD, IAC, WONT, 5, IAC, DONT, 6]))
        client.send(bytes([IAC, SB, 24]) + b"x" * 10_000 + bytes([IAC, IAC, IAC, SE]))
        client.dial("2001")
        wanted = [(WILL, ECHO), (WILL, SUPPRESS_GO_AHEAD), (WONT, 24), (DONT, 31), (DO, SUPPRESS_GO_AHEAD)]
        if client.commands != [bytes(command) for command in wanted]:
            raise Failed(f"the commands are {client.commands}")
        client.send(bytes([IAC, DONT, ECHO, IAC, DONT, ECHO]))
        client.says_back("after")
        if client.commands[len(wanted):] != [bytes([WONT, ECHO])]:
            raise Failed(f"then the commands are {client.commands[len(wanted):]}")


def octets(service: BuiltIn) -> None:
    """Each octet comes back, but for the recall character."""
    sent = bytes(octet for octet in range(256) if octet != 16)
    with Client(service.listen) as client:
        client.wait(b"clears the call.\r\n")
        client.dial_plainly("2001", "2:0,5:0,6:0,12:0,13:0")
        for octet in sent:
            client.send(bytes([octet, octet]) if octet == IAC else bytes([octet, 0]) if octet == 13 else bytes([octet]))
        client.send(b"end\r\0")
        seen = client.wait(b"end")[:-3]
        if seen != b"\r" + sent:
            raise Failed(f"{seen!r} came back")


def breaks(service: BuiltIn) -> None:
    with Client(service.listen) as client:
        client.dial("2001")
        client.send(bytes([IAC, BRK]))
        client.says_back("after a break")
        client.send(bytes([IAC, 100, IAC, 97]))
        client.says_back("lone")


def full_house(service: BuiltIn) -> None:
    with contextlib.ExitStack() as stack:
        clients = [stack.enter_context(Client(service.listen)) for _ in range(8)]
        for number, client in enumerate(clients):
            client.wait(f"Terminal {number} of desk. ".encode())
            client.dial("2001")
        with Client(service.listen) as ninth:
            ninth.wait(b"All terminals are taken. Try again later.\r\n")
            ninth.wait_end()
        for number, client in enumerate(clients):
            client.says_back(f"client {number} says so")


def leaving(service: BuiltIn) -> None:
    """Clients go in a call, orderly and not, and in the middle of an option."""
    for last in (b"", b"half a line", bytes([IAC]), bytes([IAC, DO]), bytes([IAC, SB, 24, 1, 2, IAC])):
        with Client(service.listen) as client:
            client.wait(b"Terminal 0 of desk. ")
            client.dial("2001")
            client.says_back("here")
            client.send(last)
        service.wait_status("port 0 free")
    with Client(service.listen) as client:
        client.wait(b"Terminal 0 of desk. ")
        client.dial("2001")
        break_off(client.socket)
    service.wait_status("port 0 free")


def next_client(service: BuiltIn) -> None:
    """A client finds nothing of the one before it: no half-typed line, and the parameters as they were."""
    with Client(service.listen) as client:
        client.wait(b"Terminal 0 of desk. ")
        client.type("set 2:0,6:0")
        client.send(b"20")
    service.wait_status("port 0 free")
    with Client(service.listen) as client:
        client.wait(b"Terminal 0 of desk. ")
        client.type("2001")
        client.wait(b"2001")
        client.wait(b"COM\r\n")


def called(service: BuiltIn) -> None:
    """A call of the desk rings where a client is, and is cleared if there is none."""
    with Client(service.listen) as caller:
        caller.wait(b"clears the call.\r\n")
        caller.type("1000")
        caller.wait(b"CLR ")
        with Client(service.listen) as other:
            other.wait(b"Terminal 1 of desk. ")
            other.wait(b"clears the call.\r\n")
            caller.dial("1000")
            caller.type("is anybody there")
            other.wait(b"is anybody there")
        caller.wait(b"CLR ")
        service.wait_status("port 1 free")
        caller.type("1000")
        caller.wait(b"CLR ")


def held(service: BuiltIn) -> None:
    """DC3 holds what is shown, and DC1 lets it go on."""
    with Client(service.listen) as client:
        client.wait(b"clears the call.\r\n")
        client.dial_plainly("2001", "2:0,12:1")
        client.send(b"\x13")
        client.type("held back")
        time.sleep(0.3)
        client.read()
        if b"held" in client.text:
            raise Failed("text is shown after DC3")
        client.send(b"\x11")
        client.wait(b"held back")
        client.type("and on")
        client.wait(b"and on")


def carry(client: Client, lines: int) -> None:
    """All comes back of so many lines that are sent at once."""
    sent = b"".join(b"%08d of many lines of text, all of them sent at once\n" % number for number in range(lines))
    with contextlib.closing(client.socket.dup()) as writing:
        writing.settimeout(LONG)
        sender = threading.Thread(target=writing.sendall, args=(sent,), daemon=True)
        sender.start()
        seen = client.wait(sent[-54:], patience=LONG)
        sender.join()
    if seen.removeprefix(b"\r") != sent:
        raise Failed("something else came back")


def much(service: BuiltIn) -> None:
    """Much that is sent at once comes back, and takes no memory."""
    with Client(service.listen) as client:
        client.wait(b"clears the call.\r\n")
        client.dial_plainly("2001", "2:0,5:0,6:0,13:0")
        carry(client, 1000)
        before = service.resident()
        carry(client, MUCH // 54)
        if service.resident() > before + 256:
            raise Failed(f"memory grew from {before} to {service.resident()} kilobytes")


def one_sided(service: BuiltIn) -> None:
    """Clients that never read or never write stop themselves, and nobody else."""
    with Client(service.listen) as deaf, Client(service.listen) as mute, Client(service.listen) as other:
        deaf.wait(b"clears the call.\r\n")
        deaf.dial("2001")
        mute.wait(b"clears the call.\r\n")
        other.wait(b"clears the call.\r\n")
        other.dial("2001")
        deaf.socket.setblocking(False)
        before, stopped = service.resident(), 0
        line = b"nobody reads this\r\0" * 1000
        for _ in range(400):
            try:
                deaf.socket.send(line)
            except BlockingIOError:
                stopped += 1
                time.sleep(0.005)
        other.says_back("still here")
        if stopped == 0:
            raise Failed("the client was never stopped")
        if service.resident() > before + 256:
            raise Failed(f"memory grew from {before} to {service.resident()} kilobytes")
        service.stop()


def many_connections(service: BuiltIn) -> None:
    with Client(service.listen) as other:
        other.wait(b"Terminal 0 of desk. ")
        other.dial("2001")
        for _ in range(1000):
            with Client(service.listen) as client:
                client.send(b"2001\r\0")
        service.wait_status("port 7 free")
        other.says_back("after many")
    service.wait_status("port 0 free")
    if len(service.lines()) < 100:
        raise Failed("the log has few lines")


def ending(service: BuiltIn) -> None:
    """The control port, and the end in the middle of a transfer."""
    with Client(service.listen) as client:
        client.wait(b"clears the call.\r\n")
        client.dial("2001")
        status = service.ask("status")
        if not re.match(r"x25d \d+\.\d+\.\d+ up \d+ s\nnode exchange switch up\nnode desk pad up\n(?:node \w+ host up\n){3}"
                        r"(?:line \d dte \w+ dce exchange up\n){4}"
                        r"clients \d+ refused 0 lines-lost 0 lines-withheld \d+\n(?:call .*\n)?"
                        r"port 0 in use keys 0 octets 0 overtaken 0\nport 1 free\n", status):
            raise Failed(f"the status is {status!r}")
        service.ask("clear", "0")
        client.wait_end()
    service.wait_status("port 0 free")
    service.ask("clear", "0", status=1)
    service.ask("clear", "77", status=1)
    with Client(service.listen) as client:
        client.wait(b"clears the call.\r\n")
        client.dial("2001")
        client.socket.setblocking(False)
        with contextlib.suppress(BlockingIOError):
            client.socket.send(b"a line that is sent at the end\r\0" * 10_000)
        service.stop()
        client.socket.settimeout(0.05)
        client.wait_end()


def log_tells(service: BuiltIn) -> None:
    with Client(service.listen) as client:
        client.wait(b"clears the call.\r\n")
        service.ask("clear", "0")
        client.wait_end()
    service.wait_status("port 0 free")
    with Client(service.listen) as client:
        client.wait(b"clears the call.\r\n")
    service.wait_status("port 0 free")
    service.ask("stop")
    wanted = ["start version=", f"bind terminals={service.listen}", f"bind control={service.control}",
              "attach port=0 from=127.0.0.1:", "clear port=0", "leave port=0", "attach port=0 from=127.0.0.1:", "leave port=0",
              "stop", "stopped"]
    lines = iter(service.lines())
    for want in wanted:
        if not any(line.startswith(want) for line in lines):
            raise Failed(f"the log has no {want!r} in its place: {service.lines()}")


def calls_told(service: BuiltIn) -> None:
    """The log tells what became of the call of a terminal, at its PAD and at the host."""
    with Client(service.listen) as client:
        client.wait(b"clears the call.\r\n")
        client.dial("2001")
        client.socket.sendall(b"\x10")
        client.type("CLR")
        client.wait(b"CLR CONF\r\n")
    for form in (r"call from=\d+ to=2001 node=desk terminal=0 channel=\d+",
                 r"call from=\d+ to=2001 node=echo channel=\d+",
                 r"connected node=desk terminal=0 channel=\d+",
                 r"cleared node=desk terminal=0 channel=\d+ cause=0 diagnostic=0",
                 r"cleared node=echo channel=\d+ cause=0 diagnostic=0 taken=0 said=0 seconds=\d+"):
        service.wait_log(form)


def own_number(service: BuiltIn) -> None:
    """Without a program on port 8001 the number is refused."""
    with Client(service.listen) as client:
        client.wait(b"clears the call.\r\n")
        client.type("2003")
        client.wait(b"CLR ", b"COM\r\n")


CASES = (much, first_minute, options, octets, breaks, full_house, leaving, next_client, called, held, one_sided,
         many_connections, ending, log_tells, calls_told, own_number)
