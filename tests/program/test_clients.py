"""Many clients, and how they send."""

import contextlib
import json
import socket
import subprocess

from tests.support.case import PROGRAM
from tests.support.desk import asking, serving
from tests.support.office import RETURNS, SETUP, THREE_STATIONS, station
from tests.support.program import ProgramCase, before_the_library, close_return, new, shows
from tests.support.running import PATIENCE, free_port


# Comes before the C library: a connection is one of two sockets, and a message waits in it, which
# the other one has sent. One of fifty messages asks for a return, and the others for nothing that
# there is. The answer to each is looked at before the next one comes. Between the first 66,000 and
# the last 1,000 of a million the network fails.
A_CROWD = r"""
#define _GNU_SOURCE
#include <errno.h>
#include <netinet/in.h>
#include <string.h>
#include <sys/socket.h>
#include <unistd.h>

static const char *MESSAGES[] = {"GET /x HTTP/1.1\r\n\r\n", "GET /station/s1 HTTP/1.1\r\n\r\n"};
static const char *ANSWERS[] = {"HTTP/1.1 404 ", "HTTP/1.1 200 "};
static int other = -1;
static unsigned came;

static void answered(int which)
{
    char text[4096];
    ssize_t count = read(other, text, sizeof text);
    if (count < 13 || memcmp(text, ANSWERS[which], 13))
        _exit(99);
    close(other);
    other = -1;
}

int accept4(int listener, struct sockaddr *address, socklen_t *length, int flags)
{
    int pair[2];
    struct sockaddr_in from = {
        .sin_family = AF_INET, .sin_port = htons(1), .sin_addr = {htonl(INADDR_LOOPBACK)}};
    if (other >= 0)
        answered(came % 50 == 1);
    came++;
    if (came > 66000 && came <= 999000) {
        errno = ECONNABORTED;
        return -1;
    }
    const char *message = MESSAGES[came % 50 == 1];
    if (socketpair(AF_UNIX, SOCK_STREAM | SOCK_CLOEXEC, 0, pair)
        || write(pair[0], message, strlen(message)) < 0 || shutdown(pair[0], SHUT_WR))
        _exit(98);
    other = pair[0];
    memcpy(address, &from, sizeof from);
    *length = sizeof from;
    return pair[1];
}
"""


class Clients(ProgramCase):
    def test_a_hundred_clients_at_once(self):
        """All have sent their messages before the first is answered, and each has its answer."""
        stations = 100
        new(SETUP.replace("s1", "s0") + "".join(station(f"s{n}") for n in range(1, stations)))
        clients = []
        with serving("office.db", stations + 1) as desk, contextlib.ExitStack() as open_ones:
            first = open_ones.enter_context(
                socket.create_connection(("127.0.0.1", desk.port), timeout=PATIENCE)
            )
            for n in range(stations):
                clients.append(
                    open_ones.enter_context(
                        socket.create_connection(("127.0.0.1", desk.port), timeout=PATIENCE)
                    )
                )
                body = json.dumps({"slip": f"p{n}", "votes": [n, 1], "blank": 0, "spoiled": 0})
                clients[n].sendall(asking("POST", f"/station/s{n}/lodge", body))
            first.sendall(asking("GET", "/progress"))
            for it in (first, *clients):
                found = b""
                while piece := it.recv(65536):
                    found += piece
                it.close()
                assert found.startswith(b"HTTP/1.1 200 OK"), found
        shows(
            "progress",
            "c1                  100      0    100      0      0      0      1 open\n",
            con=None,
        )

    def test_a_million_connections(self):
        """As many as a server takes, one after the other, in 128 MiB of memory: each that comes has
        its answer, also after most failed.
        """
        new()
        close_return("s1", "c1", [100, 100])
        words = [
            "bash",
            "-c",
            'ulimit -v 131072 && exec "$0" "$@"',
            PROGRAM,
            "serve",
            "--db",
            "office.db",
            "--port",
            str(free_port()),
            "--count",
            "1000000",
        ]
        ran = subprocess.run(
            words, env=before_the_library(A_CROWD), capture_output=True, text=True, timeout=PATIENCE
        )
        self.assertEqual(
            (ran.returncode, ran.stdout, ran.stderr.count("\n")),
            (0, "answered 67000 failed 933000\n", 1),
        )

    def test_a_whole_body_that_is_not_read(self):
        """A client sends all of a body before it reads: it has its answer, also where the body is
        longer than what is taken.
        """
        new()
        body = b"x" * 2000000
        cases = (
            (b"Content-Length: 2000000", 400, "body_too_long"),
            (b"Content-Length: 2000000x", 400, "bad_length"),
            (b"Transfer-Encoding: chunked", 411, "length_required"),
            (b"a: " + b"b" * 20000, 400, "head_too_long"),
        )
        with serving("office.db", len(cases)) as desk:
            for field, status, word in cases:
                with self.subTest(field=field, status=status, word=word):
                    found = desk.send(
                        b"POST /con/c1/import HTTP/1.1\r\n" + field + b"\r\n\r\n" + body
                    )
                    head, _, text = found.partition(b"\r\n\r\n")
                    self.assertEqual(
                        (head.split()[1:2], text.decode()),
                        ([b"%d" % status], '{"word":"%s"}' % word),
                    )

    def test_an_import_that_is_cut_lodges_nothing(self):
        """Of the body of an import each beginning comes, and then no more: it ended early, and no
        row of it is lodged.
        """
        new(THREE_STATIONS)
        with serving("office.db", 2 * len(RETURNS) + 2) as desk:
            for path, text in (
                ("import", RETURNS),
                ("import/semicolon", RETURNS.replace(",", ";")),
            ):
                with self.subTest(path=path, text=text):
                    head = f"POST /con/c1/{path} HTTP/1.1\r\nContent-Length: {len(text)}\r\n\r\n"
                    for end in range(len(text)):
                        with self.subTest(end=end):
                            found = desk.send((head + text[:end]).encode())
                            self.assertEqual(
                                (found.split(b" ")[1], found.rpartition(b"\n")[2]),
                                (b"400", b'{"word":"ended_early"}'),
                            )
            desk.get(
                "/progress",
                "c1                    3      3      0      0      0      0      1 open\n",
            )
            self.assertEqual(desk.ask("POST", "/con/c1/import", RETURNS)[0], 200)

    def test_how_clients_send(self):
        """Byte by byte, with an interim answer asked for, with bytes after the body, and gone
        before the answer.
        """
        new()
        body = b'{"slip":"p1","votes":[50,40],"blank":2,"spoiled":1}'
        head = b"POST /station/s1/lodge HTTP/1.1\r\nContent-Length: 51\r\n"
        with serving("office.db", 4) as desk:
            with socket.create_connection(("127.0.0.1", desk.port), timeout=PATIENCE) as it:
                it.setsockopt(socket.IPPROTO_TCP, socket.TCP_NODELAY, 1)
                for byte in head + b"\r\n" + body:
                    it.sendall(bytes([byte]))
                assert it.recv(65536).endswith(b'{"ok":"lodged","rev":1}')
            assert desk.send(head + b"Expect: 100-continue\r\n\r\n" + body).startswith(
                b"HTTP/1.1 200 OK"
            )
            assert desk.send(head + b"\r\n" + body + b"GET /progress HTTP/1.1\r\n\r\n").endswith(
                b'{"ok":"same","rev":1}'
            )
            found = desk.send(b"GET /progress HTTP/1.0\r\n\r\n")
            assert found.endswith(b"0      1      0      0      0      1 open\n"), found
        with serving("office.db", 2, failed=None) as desk:
            desk.send(b"GET /progress HTTP/1.1\r\n\r\n", hang_up=True)
            assert desk.send(b"GET /progress HTTP/1.1\r\n\r\n").startswith(b"HTTP/1.1 200 OK")
