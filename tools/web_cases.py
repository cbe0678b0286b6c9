"""Cases of the page: what browsers, and clients that are none, get of it."""
import contextlib
import http.client
import json
import random
import re
import socket
import threading
import time

import repository
from serving import PATIENCE, Client, Failed, Filed, expect, reach, wait_until

NETWORK = (repository.TOP / "services" / "first" / "network.toml").read_text()
SERVICE = """network = "network.toml"
control = "127.0.0.1:0"
[web]
listen = "127.0.0.1:0"
[[terminals]]
pad = "desk"
listen = "127.0.0.1:0"
[[service]]
host = "echo"
builtin = "echo"
[[service]]
host = "time"
builtin = "time"
"""

# What an answer may be to octets that are no request, or one for another page.
REFUSALS = {400, 404, 405, 408, 431}

# How many strings of octets that mean nothing are sent.
MANY = 1000


class Paged(Filed):
    """A service with a page."""

    def __init__(self, program: str):
        super().__init__(program, NETWORK, SERVICE, ("2001", "2002"))

    @property
    def page(self) -> str:
        return self.said(r"page       http://(127\.0\.0\.1:\d+)/\n")

    def got(self, target: str, method: str = "GET") -> tuple[http.client.HTTPResponse, bytes]:
        """The answer to a request, and its body."""
        host, port = self.page.split(":")
        with contextlib.closing(http.client.HTTPConnection(host, int(port), timeout=PATIENCE)) as connection:
            connection.request(method, target)
            answer = connection.getresponse()
            return answer, answer.read()

    def shown(self) -> dict:
        """The status as JSON."""
        answer, body = self.got("/status.json")
        expect((answer.status, answer.headers["Content-Type"]), (200, "application/json"), "the head of the status")
        return json.loads(body)


def answered(page: str, octets: bytes, ends: bool = False) -> bytes:
    """What is answered to octets, up to the end."""
    with reach(page) as connection:
        connection.settimeout(PATIENCE)
        with contextlib.suppress(ConnectionResetError, BrokenPipeError):
            connection.sendall(octets)
            if ends:
                connection.shutdown(socket.SHUT_WR)
        parts = []
        with contextlib.suppress(ConnectionResetError):
            while part := connection.recv(65536):
                parts.append(part)
        return b"".join(parts)


def status_of(answer: bytes) -> int:
    """The status of an answer, whose body has as many octets as it says."""
    head, _, body = answer.partition(b"\r\n\r\n")
    first = re.match(rb"HTTP/1\.1 (\d\d\d) ", head)
    length = re.search(rb"\r\nContent-Length: (\d+)", head)
    if not first or not length or int(length[1]) != len(body):
        raise Failed(f"the answer is {answer[:200]!r}")
    return int(first[1])


def status_shown(program: str) -> None:
    """The status as JSON has the network, and a call that comes and goes."""
    with Paged(program) as service:
        status = service.shown()
        expect([(node["name"], node["kind"], node["state"]) for node in status["nodes"]],
               [("exchange", "switch", "up"), ("desk", "pad", "up"), ("echo", "host", "up"), ("time", "host", "up")],
               "the nodes")
        expect(status["lines"][1], {"dte": "echo", "dce": "exchange", "address": "2001", "state": "up"}, "a line")
        expect((status["calls"], status["ports"][0]["in_use"]), ([], False), "calls and the first port before a call")
        expect(status["version"] + "\n", (repository.TOP / "VERSION").read_text(), "the version")
        with Client(service.terminals()) as client:
            client.dial("2001")
            client.says_back("hello")
            call, = service.shown()["calls"]
            expect([call[key] for key in ("from", "to", "node", "over")], ["1001", "2001", "echo", [0, 1]], "the call")
            expect(service.shown()["ports"][0]["in_use"], True, "whether the first port is in use in a call")
            client.leave()
            wait_until(lambda: service.shown()["calls"] == [], "the end of the call in the status")
        service.stop()


def page_shown(program: str) -> None:
    """The page is whole, has nothing from outside, and HEAD gives its head alone."""
    with Paged(program) as service:
        answer, body = service.got("/")
        expect((answer.status, answer.headers["Content-Type"]), (200, "text/html; charset=utf-8"), "the head of the page")
        expect(set(re.findall(rb"\w+://[^\"' )]+", body)), {b"http://www.w3.org/2000/svg"}, "the addresses in the page")
        for target in ("/", "/status.json", "/none"):
            whole, body = service.got(target)
            head, nothing = service.got(target, "HEAD")
            expect((head.status, nothing), (whole.status, b""), f"what HEAD of {target} gives")
            if target != "/status.json":
                expect(head.headers["Content-Length"], str(len(body)), f"the length that HEAD of {target} says")
        service.stop()


def requests_refused(program: str) -> None:
    """A request that is none, is too long, torn or slow, or has another method, gets its status. A terminal goes on."""
    with Paged(program) as service, Client(service.terminals()) as client:
        client.dial("2001")
        page, host = service.page, b"Host: here\r\n"
        for wanted, octets in ((200, b"GET / HTTP/1.1\r\n" + host + b"\r\n"),
                               (200, b"GET / HTTP/1.0\r\n\r\n"),
                               (200, b"\r\nGET /status.json HTTP/1.1\r\n" + host + b"Accept: a\r\n\r\nand more"),
                               (400, b"GET / HTTP/1.1\r\n\r\n"),
                               (400, b"GET / HTTP/1.1\r\n" + 2 * host + b"\r\n"),
                               (400, b"GET / HTTP/2.0\r\n" + host + b"\r\n"),
                               (400, b"GET /\r\n\r\n"),
                               (400, b"\x16\x03\x01\x02\x00\x01"),
                               (404, b"GET /status HTTP/1.1\r\n" + host + b"\r\n"),
                               (404, b"GET /../etc HTTP/1.1\r\n" + host + b"\r\n"),
                               (405, b"POST / HTTP/1.1\r\n" + host + b"Content-Length: 2\r\n\r\nhi"),
                               (405, b"DELETE /status.json HTTP/1.1\r\n" + host + b"\r\n"),
                               (431, b"GET / HTTP/1.1\r\n" + host + b"Cookie: " + 9000 * b"a" + b"\r\n\r\n"),
                               (431, b"GET / HTTP/1.1\r\n" + host + 80 * b"A: b\r\n" + b"\r\n")):
            expect(status_of(answered(page, octets)), wanted, f"the status of {octets[:60]!r}")
        expect(status_of(answered(page, b"GET / HT", ends=True)), 408, "the status of a request that ends early")
        client.says_back("still here")
        torn(service, client)
        service.stop()


def torn(service: Paged, client: Client) -> None:
    """Requests that stay unfinished at every place: each gets 408, and others come in then. A terminal goes on."""
    seen = []
    waiting = [threading.Thread(target=lambda: seen.append(status_of(answered(service.page, b"GET / HTTP/1.1\r\nHo"))))
               for _ in range(4)]
    for thread in waiting:
        thread.start()
    begun = time.monotonic()
    for number in range(5):
        client.says_back(f"line {number}")
    expect(status_of(answered(service.page, b"GET / HTTP/1.0\r\n\r\n")), 200, "the status of one who came after them")
    for thread in waiting:
        thread.join(PATIENCE)
    expect(seen, [408] * 4, "the statuses of requests that stay unfinished")
    if time.monotonic() - begun > 15:
        raise Failed(f"unfinished requests held others up for {time.monotonic() - begun:.0f} seconds")


def some_request(source: random.Random) -> bytes:
    """Octets that mean nothing, or a request in which some are others."""
    if source.random() < 0.5:
        return source.randbytes(source.randrange(1, 400))
    octets = bytearray(b"GET /status.json HTTP/1.1\r\nHost: here\r\nAccept: */*\r\n\r\n")
    for _ in range(source.randrange(1, 4)):
        octets[source.randrange(len(octets))] = source.randrange(256)
    return bytes(octets)


def random_octets(program: str) -> None:
    """A thousand strings of octets get a status each, and hurt nobody."""
    source = random.Random(78)
    strings = [some_request(source) for _ in range(MANY)]
    with Paged(program) as service, Client(service.terminals()) as client:
        client.dial("2001")
        failures = []

        def send(part: list[bytes]) -> None:
            for octets in part:
                try:
                    status = status_of(answered(service.page, octets, ends=True))
                    expect(status in REFUSALS | {200}, True, f"whether {status} may be the status of {octets!r}")
                except Failed as failure:
                    failures.append(f"{failure} to {octets!r}")
        threads = [threading.Thread(target=send, args=(strings[number::4],)) for number in range(4)]
        for thread in threads:
            thread.start()
        while any(thread.is_alive() for thread in threads):
            client.says_back("in between")
            time.sleep(0.2)
        expect(failures[:3], [], "the answers to octets that mean nothing")
        expect(len(service.shown()["nodes"]), 4, "the number of nodes after all")
        service.stop()


CASES = (status_shown, page_shown, requests_refused, random_octets)
