"""The limits of the proxy: how often, how much and how long."""

import concurrent.futures
import contextlib
import itertools
import os
import re
import resource
import shutil
import signal
import socket
import struct
import threading
import time
from pathlib import Path

from tests.support.case import needs
from tests.support.desks import answer_of, desk_with, recording_desk
from tests.support.office import with_stations
from tests.support.proxy import children, errors, office_and_proxy, pipelined, proxy
from tests.support.running import PATIENCE, tries, until
from tests.support.scripts import loaded
from tests.support.site import DEPLOY, NAME, SiteCase

# A request with its status, how many answers come at once, how many a second after that, and the
# first letter of the clerk who sends it, where one does.
RATES = (("GET /con/c1/tally", b"200", 400, 200, ""), ("GET /progress", b"200", 400, 200, ""),
         ("GET /nonesuch", b"404", 200, 50, ""), ("GET /clerk.html", b"401", 100, 20, ""),
         ("GET /station/s1", b"401", 100, 20, ""), ("GET /con/c1/stations", b"401", 100, 20, ""),
         ("GET /now/progress", b"401", 100, 20, ""), ("GET /now/con/c1", b"401", 100, 20, ""),
         ("POST /con/c1/certify", b"401", 100, 20, ""),
         ("POST /con/c1/import", b"401", 100, 20, ""),
         ("GET /now/con/c1", b"200", 200, 50, "a"), ("GET /station/s1", b"200", 200, 50, "b"),
         ("GET /con/c1/stations", b"200", 10, 2, "c"),
         ("GET /now/con/c1/stations", b"200", 10, 2, "d"),
         ("POST /station/s1/lodge", b"200", 100, 20, "e"),
         ("POST /con/c1/import", b"200", 60, 1, "f"))


def taken(front, connections):
    """Whether the proxy has read all that was sent to it over these connections."""
    own = {one.getsockname() for one in connections}
    for line in Path("/proc/net/tcp").read_text().splitlines()[1:]:
        _, here, there, _, queues = line.split()[:5]
        to_send, to_read = (int(many, 16) for many in queues.split(":"))
        if address(there)[1] == front.port and address(here) in own and to_send or address(here)[
            1] == front.port and address(there) in own and to_read:
            return False
    return True


def address(words):
    """An address and a port, as the system writes them."""
    return socket.inet_ntoa(struct.pack("=I", int(words[:8], 16))), int(words[9:], 16)


class Limits(SiteCase):
    @needs("nginx", "openssl")
    def test_who_asks_too_often(self):
        """160 guesses at once from one address: 100 are answered at once, and the others wait,
        while another address is served; more than a hundred connections are refused."""
        with recording_desk() as (port, messages), proxy(port) as front:
            began, served = time.monotonic(), []
            other = threading.Thread(target=lambda: served.append((
                front.ask("POST", "/con/c1/certify", {}, "berta", source="127.0.3.2").status,
                time.monotonic() - began)))
            other.start()
            self.assertEqual(pipelined(front, "POST /con/c1/certify", 160, "127.0.3.1"),
                             {b"401": 160})
            took = time.monotonic() - began
            other.join()
            # 20 a second.
            self.assertGreater(took, 60 / 20 - 0.5, (took, served))
            self.assertEqual(served[0][0], 200, (took, served))
            self.assertLess(served[0][1], took, (took, served))
            self.assertEqual((len(messages), len(front.refused(160))), (1, 160))
            addresses = iter(range(4, 255))

            def beyond_a_hundred():
                # From another address each time: the proxy holds a client for ten seconds at most.
                source = f"127.0.3.{next(addresses)}"
                with contextlib.ExitStack() as held:
                    head = (f"POST /con/c1/certify HTTP/1.1\r\nHost: {NAME}\r\n"
                            "Content-Length: 9\r\n\r\n").encode()
                    for _ in range(100):
                        held.enter_context(front.connect(source)).sendall(head)
                    return front.ask("POST", "/con/c1/certify", {}, "berta", source=source).status

            until(lambda: beyond_a_hundred() == 429)

    @needs("nginx", "openssl")
    def test_what_no_limit_counts(self):
        """A request that breaks a rule is answered at once, however often it comes.

        It is written into no file.
        """
        with recording_desk() as (port, messages), proxy(port) as front:
            for asked, headers, status in (
                ("POST /con/c1/certify?x", "", b"404"), ("PUT /con/c1/certify", "", b"405"),
                ("POST /con/c1/certify", "Origin: null\r\n", b"403"),
                ("POST /con/c1/certify", f"Authorization: {front.authorization('cl ara', 'x')}\r\n",
                 b"401"),
            ):
                with self.subTest(asked=asked, headers=headers, status=status):
                    self.assertEqual(pipelined(front, asked, 300, "127.0.3.3", headers),
                                     {status: 300})
            self.assertEqual(
                front.ask("POST", "/con/c1/certify", {}, "berta", source="127.0.3.3").status, 200)
            self.assertEqual((len(front.record(1)), front.refused(),
                              (front.folder / "log/error.log").read_text()[:500]), (1, [], ""))

    @needs("nginx", "openssl")
    def test_silent_and_slow_clients(self):
        """Eighty clients say nothing, or a byte from time to time: others are served as ever, and
        the silent ones are sent away."""
        with office_and_proxy(with_stations(80)) as (_, front), contextlib.ExitStack() as held:
            def serve(n):
                began = time.monotonic()
                self.assertEqual(front.ask(
                    "POST", f"/station/s{n}/lodge",
                    {"slip": "p1", "votes": [1, 2], "blank": 0, "spoiled": 0}, "clara").status, 200)
                self.assertEqual(front.ask("GET", "/con/c1/tally").status, 200)
                return time.monotonic() - began

            alone = [serve(n) for n in range(41, 81)]
            slow = [held.enter_context(front.connect(f"127.0.4.{n % 4 + 1}")) for n in range(80)]
            head = (f"POST /station/s1/lodge HTTP/1.1\r\nHost: {NAME}\r\n"
                    f"Authorization: {front.authorization('clara')}\r\nContent-Length: 60\r\n\r\n")
            for n, client in enumerate(slow):
                # Some are silent, some stop within the head, and some within the body.
                client.sendall((b"", b"POST /sta", head.encode(), head.encode() + b'{"slip"')[
                    n % 4])
            among = []
            for n in range(1, 41):
                # (where this machine is slow the proxy may have sent it away)
                with contextlib.suppress(OSError):
                    slow[n].sendall(b" ")
                among.append(serve(n))
            print(f"alone {sum(alone):.2f} s, at most {max(alone):.2f}; among slow clients "
                  f"{sum(among):.2f} s, at most {max(among):.2f}")
            # One that held the desk would hold it for ten seconds.
            self.assertLess(max(among), 10, "slow clients held the desk")
            self.assertLess(sum(among), max(10, 5 * sum(alone)), "slow clients held the desk")
            # The connection of a silent client is closed after ten seconds or so.
            slow[0].settimeout(PATIENCE)
            self.assertEqual(slow[0].recv(10), b"")

    @needs("nginx", "openssl")
    def test_how_often_an_address_may_ask(self):
        """Of each sort of request as many as are answered at once, and those of three seconds
        more."""
        staff = "".join(f"{who}{n} clerk;\n" for who in "abcdef" for n in range(3))
        with recording_desk(b"</html>\r\n") as (port, _), proxy(port, staff=staff) as front:
            def asked(place, target, status, at_once, rate, who):
                name = f"{who}{place // len(RATES)}"
                fields = f"Authorization: {front.authorization(name)}\r\n" if who else ""
                began, times = time.monotonic(), at_once + 3 * rate
                found = pipelined(front, target, times, f"127.0.12.{place + 1}", fields)
                self.assertEqual(found, {status: times}, target)
                return target, time.monotonic() - began - (3 * rate - 1) / rate

            def all_of(rows, most):
                """Asks all at once, each from an address of its own; those that took longer by more
                than a busy machine explains."""
                with concurrent.futures.ThreadPoolExecutor(len(rows)) as all_at_once:
                    found = list(all_at_once.map(lambda row: asked(next(places), *row), rows))
                print(*(f"{target} {more:+.1f} s" for target, more in found), sep=", ")
                self.assertTrue(all(more > -0.8 for _, more in found), found)
                return tuple(row for row, (_, more) in zip(rows, found) if more >= most)

            late = RATES
            for n in range(3):
                places = itertools.count(n * len(RATES))
                late = late and all_of(late, 2.5)
            self.assertEqual(late, ())

    @needs("nginx", "openssl")
    def test_how_often_a_name_asks_from_many_addresses(self):
        """As often as one address: its reads and its commands. Guesses at its password, and another
        name, do not count."""
        with recording_desk(b"</html>\r\n") as (port, _), proxy(port) as front:
            def took(asked, name, times, net, password=None, status=b"200"):
                """Asks so often, together from four addresses; how long that took."""
                fields = f"Authorization: {front.authorization(name, password)}\r\n"
                began = time.monotonic()
                with concurrent.futures.ThreadPoolExecutor(4) as addresses:
                    found = list(addresses.map(
                        lambda n: pipelined(front, asked, times // 4, f"127.0.{net}.{n}", fields),
                        range(1, 5)))
                self.assertEqual(found, [{status: times // 4}] * 4, asked)
                return time.monotonic() - began

            for asked, name, times, seconds, net in (
                ("GET /now/con/c1", "clara", 400, 200 / 50, 30),
                ("POST /station/s1/lodge", "clara", 200, 100 / 20, 33),
            ):
                with self.subTest(asked=asked):
                    guesses = took(asked, name, 100, net, "guess", b"401")
                    found = took(asked, name, times, net + 1)
                    print(f"{asked}: {found:.1f} s, after guesses of {guesses:.1f} s")
                    self.assertGreater(found, seconds - 0.5)
                    nets = iter((net + 11, net + 21, net + 31))
                    tries(lambda: self.assertLess(took(asked, "bruno", 60, next(nets)), 3))
            # Of guesses the proxy's own log has nothing: it would have those beyond the limit too.
            self.assertEqual(errors(front), "")

    @needs("nginx", "openssl")
    def test_tables_of_stations_from_many_addresses(self):
        """Strangers do not get them, and the desk hears nothing of them; other tables they get as
        fast as their own limits say."""
        with recording_desk(b"{}\n") as (port, messages), proxy(port) as front:
            def took(target, net, status=b"200"):
                began = time.monotonic()
                with concurrent.futures.ThreadPoolExecutor(4) as strangers:
                    self.assertEqual(list(strangers.map(
                        lambda n: pipelined(front, f"GET {target}", 300, f"127.0.{net}.{n}"),
                        range(1, 5))), [{status: 300}] * 4)
                return time.monotonic() - began

            took("/station/s1", 21, b"401")
            self.assertEqual(messages, [])
            nets = iter((22, 23, 24))

            def not_limited():
                seconds = took("/con/c1/tally", next(nets))
                print(f"300 requests from four addresses: {seconds:.1f} s")
                # (with the limits of a table of stations it would be more than two minutes)
                self.assertLess(seconds, 8)

            tries(not_limited)

    @needs("nginx", "openssl")
    def test_a_network_of_addresses(self):
        """An address of IPv6 shares the limits of its /64, and one of IPv4 has its own."""
        given = ("real_ip_header X-Address; set_real_ip_from 127.0.0.0/8; include "
                 "office/headers.conf;")
        with recording_desk() as (port, messages), proxy(
            port, more={"        include office/headers.conf;\n\n        limit_conn": (
                f"        {given}\n\n        limit_conn")}) as front:
            def guesses(addresses):
                fields = [f"X-Address: {address}\r\n" for address in addresses]
                began = time.monotonic()
                self.assertEqual(
                    pipelined(front, "POST /con/c1/certify", len(addresses), "127.0.0.1", fields),
                    {b"401": len(addresses)})
                return time.monotonic() - began

            # 100 at once, and 20 a second: those that share a limit take ten seconds.
            for addresses in ([f"2001:db8:1:2:{n:x}::{n:x}" for n in range(1, 301)],
                              [f"2001:db8::{n:x}" for n in range(1, 301)]):
                with self.subTest(addresses=addresses):
                    took = guesses(addresses)
                    self.assertGreater(took, 9.5)

            def not_limited(address, net):
                took = guesses([address.format(net=net, n=n, of=n // 200, last=n % 200 + 1)
                                for n in range(1, 301)])
                print(f"300 guesses from 300 addresses: {took:.1f} s")
                self.assertLess(took, 8)

            for address in ("2001:db8:{net}:{n:x}::1", "192.{of}.{net}.{last}"):
                with self.subTest(address=address):
                    nets = iter((2, 3, 4))
                    tries(lambda: not_limited(address, next(nets)))
            self.assertEqual(messages, [])

    def opened(self, front, held, number, net):
        """An address of a net, and its connections, opened within four seconds.

        The proxy ends those that wait for ten. Where the machine is too busy for that, others are
        opened, of another address.
        """
        for n in range(1, 21):
            began, source = time.monotonic(), f"{net}.{n}"
            with concurrent.futures.ThreadPoolExecutor(8) as some:
                them = list(some.map(lambda _: held.enter_context(front.connect(source)),
                                     range(number)))
            if time.monotonic() - began < 4:
                return source, them
            for one in them:
                one.close()
        self.fail(f"{number} connections are not opened within four seconds")

    @needs("nginx", "openssl")
    def test_what_is_refused_for_its_number(self):
        """Of 240 commands of one address at once, each over a connection of its own, a hundred are
        answered at once, a hundred wait, and the others are refused; of a hundred requests that are
        under way none is refused, and of one more it is. No log has any."""
        with recording_desk() as (port, _), proxy(port) as front, contextlib.ExitStack() as held:
            asked = (f"POST /con/c1/certify HTTP/1.1\r\nHost: {NAME}\r\n"
                     "Content-Length: 0\r\n\r\n").encode()
            begun, nets = asked.replace(b"Length: 0", b"Length: 9"), iter(range(16, 22))

            def at_once():
                _, all_of_them = self.opened(front, held, 240, f"127.0.{next(nets)}")
                began = time.monotonic()
                for one in all_of_them:
                    one.sendall(asked)
                until(lambda: taken(front, all_of_them))
                # (20 a second more, while they come)
                most = 202 + 20 * (time.monotonic() - began)
                statuses = [one.recv(65536)[9:12] for one in all_of_them]
                self.assertTrue(200 <= statuses.count(b"401") <= most, (most, statuses))
                self.assertEqual(set(statuses), {b"401", b"429"}, statuses)

            def under_way():
                source, them = self.opened(front, held, 99, f"127.0.{next(nets)}")
                for one in them:
                    one.sendall(begun)
                until(lambda: taken(front, them))
                self.assertEqual(front.ask("GET", "/progress", source=source).status, 200)
                one_more = held.enter_context(front.connect(source))
                one_more.sendall(begun)
                until(lambda: taken(front, [one_more]))
                self.assertEqual(front.ask("GET", "/progress", source=source).status, 429)

            tries(at_once)
            tries(under_way)
            self.assertEqual(errors(front), "")

    @needs("nginx", "openssl")
    def test_how_many_files_may_be_on_their_way(self):
        """Sixteen of an address, as each has its room in memory from its first byte on."""
        with recording_desk() as (port, _), proxy(port) as front, contextlib.ExitStack() as held:
            begun = (f"POST /con/c1/import HTTP/1.1\r\nHost: {NAME}\r\nAuthorization: "
                     f"{front.authorization('clara')}\r\nContent-Length: 100000\r\n\r\nx").encode()
            nets = iter(range(40, 44))

            def on_their_way():
                source, them = self.opened(front, held, 16, f"127.0.{next(nets)}")
                for one in them:
                    one.sendall(begun)
                until(lambda: taken(front, them))
                self.assertEqual([front.ask("POST", target, "x", "clara", source=source).status
                                  for target in ("/con/c1/trial", "/station/s1/lodge")],
                                 [429, 200])
                self.assertEqual(front.ask("POST", "/con/c1/import", "x", "clara",
                                           source="127.0.45.1").status, 200)

            tries(on_their_way)

    @needs("nginx", "openssl")
    def test_fifteen_hundred_connections(self):
        """A process of the proxy bears more than its service would have by itself, and as many
        processes run as the machine has processors."""
        before = resource.getrlimit(resource.RLIMIT_NOFILE)
        with recording_desk() as (port, _), contextlib.ExitStack() as held:
            held.callback(resource.setrlimit, resource.RLIMIT_NOFILE, before)
            resource.setrlimit(resource.RLIMIT_NOFILE, (1024, before[1]))
            front = held.enter_context(proxy(
                port, more={"worker_processes auto;": "worker_processes 1;"}))
            resource.setrlimit(resource.RLIMIT_NOFILE, (min(4096, before[1]), before[1]))
            for n in range(1500):
                held.enter_context(socket.create_connection(
                    ("127.0.0.1", front.port), timeout=PATIENCE,
                    source_address=(f"127.0.14.{n % 20 + 1}", 0)))
            self.assertEqual(front.ask("GET", "/progress").status, 200)
            self.assertEqual(errors(front), "")
        with recording_desk() as (port, _), proxy(port) as front:
            until(lambda: sum("worker" in Path(f"/proc/{child}/cmdline").read_text()
                              for child in children(front)) == os.cpu_count())

    @needs("nginx", "openssl")
    def test_who_lets_the_proxy_wait(self):
        """Who does not go on with a head, a body or its reading is cut off after ten seconds, and
        an idle connection after fifteen."""
        with recording_desk() as (port, _), proxy(port) as front, contextlib.ExitStack() as held:
            (front.folder / "pages/large.csv").write_bytes(b"x" * 60_000_000)
            head = (f"POST /station/s1/lodge HTTP/1.1\r\nHost: {NAME}\r\n"
                    f"Authorization: {front.authorization('clara')}\r\nContent-Length: 60\r\n\r\n")
            idle = f"GET /progress HTTP/1.1\r\nHost: {NAME}\r\n\r\n"
            reading = f"GET /large.csv HTTP/1.1\r\nHost: {NAME}\r\n\r\n"
            waiting, began, asked = {}, {}, {}
            for name, sent in (("head", head[:40]), ("no body", head), ("body", head + '{"slip"'),
                               ("idle", idle), ("reader", reading)):
                began[name] = time.monotonic()
                waiting[name] = held.enter_context(front.connect())
                waiting[name].sendall(sent.encode())
                asked[name] = time.monotonic()
            answer = b""
            while not answer.endswith(b'"rev":1}'):
                answer += waiting["idle"].recv(65536)

            def ended(name):
                with contextlib.suppress(ConnectionResetError):
                    self.assertEqual(waiting[name].recv(65536), b"")
                return time.monotonic()

            with concurrent.futures.ThreadPoolExecutor(4) as waits:
                ends = dict(zip(began, waits.map(ended, list(began)[:4])))
            for name, seconds in (("head", 10), ("no body", 10), ("body", 10), ("idle", 15)):
                with self.subTest(name=name, seconds=seconds):
                    times = (began, asked, ends)
                    self.assertGreater(ends[name] - began[name], seconds - 1, times)
                    self.assertLess(ends[name] - asked[name], seconds + 30, times)
            # Nothing of what it did not read is kept for it: the connection itself is reset.
            read, connection = 0, waiting["reader"].fileno()
            os.set_blocking(connection, True)
            try:
                while part := os.read(connection, 1 << 20):
                    read += len(part)
                self.fail(f"it was not reset: {read}")
            except ConnectionResetError:
                self.assertLess(read, 60_000_000)

    @needs("nginx", "openssl")
    def test_what_is_large_stays_in_memory(self):
        """The longest command, the longest import and a table of half a megabyte are in no file,
        however late its reader takes it; the desk is not held."""
        taken = []
        table = "x" * 480_000

        def answered(head, _):
            taken.append(head)
            return answer_of(table)

        with desk_with(answered) as port, proxy(port) as front:
            self.assertEqual(front.ask("POST", "/station/s1/lodge", b"x" * 16_384, "clara").status,
                             200)
            self.assertEqual(front.ask("POST", "/con/c1/import", b"x" * 1_048_576, "clara").status,
                             200)
            # Of which the system takes little in the place of a reader who does not read.
            there = socket.socket()
            there.setsockopt(socket.SOL_SOCKET, socket.SO_RCVBUF, 4096)
            there.setsockopt(socket.IPPROTO_TCP, socket.TCP_MAXSEG, 1460)
            there.connect(("127.0.0.1", front.port))
            with front.tls.wrap_socket(there, server_hostname=NAME) as late:
                late.sendall(f"GET /now/con/c1 HTTP/1.1\r\nHost: {NAME}\r\n"
                             f"Authorization: {front.authorization('clara')}\r\n\r\n".encode())
                until(lambda: len(taken) == 3)
                time.sleep(0.5)
                self.assertEqual(front.ask("GET", "/now/con/c1", name="berta").body.decode(), table)
            self.assertEqual(errors(front), "")
        # (the log would say it)
        shutil.rmtree("proxy")
        with recording_desk() as (port, _), proxy(
            port, more={"client_body_buffer_size 1m;": ""}) as front:
            self.assertEqual(front.ask("POST", "/con/c1/import", b"x" * 100_000, "clara").status,
                             200)
            self.assertIn("is buffered to a temporary file", errors(front))

    def test_how_long_a_body_may_be(self):
        """The patterns of nginx.conf, of every length near the limits and of many far from them."""
        text = (DEPLOY / "nginx.conf").read_text(encoding="utf-8")
        patterns = re.findall(r'^ *"~(.*)" 0;$',
                              text[text.index(" $is_too_long {"):].partition("}\n")[0], re.M)
        self.assertEqual(len(patterns), 3)
        lengths = {*range(20_000), *range(99_990, 100_010), *range(999_000, 1_060_000, 7),
                   *range(1_048_000, 1_049_000), *(10**n for n in range(5, 30))}
        for target, most in (("POST:/station/s1/lodge", 16_384), ("POST:/con/c1/certify", 16_384),
                             ("POST:/con/c1/import", 1_048_576),
                             ("POST:/con/c1/import/semicolon", 1_048_576),
                             ("POST:/con/c1/trial", 1_048_576),
                             ("POST:/con/c1/trial/semicolon", 1_048_576), ("POST:/con/c1", 0),
                             ("POST:/", 0), ("GET:/station/s1/lodge", 0), ("GET:/con/c1/import", 0),
                             ("PUT:/station/s1/lodge", 0), ("POST:/con/c1/import:1", 0)):
            with self.subTest(target=target, most=most):
                may = {length for length in lengths for zeros in ("", "00")
                       if any(re.search(pattern.replace(r"\z", r"\Z"), f"{target}:{zeros}{length}")
                              for pattern in patterns)}
                self.assertEqual(may, {length for length in lengths if length <= most})

    @needs("nginx", "openssl")
    def test_what_is_too_long(self):
        """It is refused at once, without a name, and is written nowhere: nobody fills a disk with
        it."""
        with recording_desk() as (port, messages), proxy(port) as front:
            for line in ("GET /progress", "GET /", "GET /nonesuch", "GET /now/progress",
                         "GET /clerk.html", "GET /logout", "HEAD /con/c1", "PUT /con/c1/certify",
                         "POST /con/c1", "POST /station/s1/lodge", "POST /con/c1/import",
                         "POST /con/c1/import/semicolon", "POST /con/c1/import?x",
                         "POST /con/c1/trial"):
                with self.subTest(line=line):
                    for length in ("1048577", "0001048577", "99999999999999999"):
                        with self.subTest(length=length):
                            with front.connect() as it:
                                it.sendall(f"{line} HTTP/1.1\r\nHost: {NAME}\r\n"
                                           f"Content-Length: {length}\r\n\r\n".encode())
                                self.assertEqual(it.recv(65536)[9:12], b"413")
            self.assertEqual((messages, errors(front), front.refused()), ([], "", []))

    @needs("nginx", "openssl")
    def test_an_import_whose_client_has_gone(self):
        """The recorder is held up while it comes, and its client goes: it is carried out and
        recorded all the same."""
        with recording_desk() as (port, messages), proxy(port) as front:
            front.recorder.send_signal(signal.SIGSTOP)
            body = b"x" * 1_000_000
            with front.connect() as it:
                it.sendall(f"POST /con/c1/import HTTP/1.1\r\nHost: {NAME}\r\n"
                           f"Authorization: {front.authorization('clara')}\r\n"
                           f"Content-Length: {len(body)}\r\n\r\n".encode() + body)
                until(lambda: taken(front, [it]))
            time.sleep(0.5)
            front.recorder.send_signal(signal.SIGCONT)
            line = front.record(1)[0]
            self.assertEqual((line["body"], line["status"], [len(body) for _, body in messages]),
                             (body.decode(), 200, [1_000_000]))

    @needs("nginx", "openssl")
    def test_tables_without_a_recorder(self):
        """While there is no reader a table cannot be had; it can as soon as the reader and the
        office are there again, without a recorder."""
        with recording_desk() as (port, _):
            pass
        with proxy(port) as front:
            front.end_recorder()
            front.end_reader()
            self.assertEqual(front.ask("GET", "/con/c1").status, 502)
            front.start_reader()
            with desk_with(lambda *_: answer_of("{}"), port):
                # (an answer is kept for a second)
                until(lambda: front.ask("GET", "/con/c1").status == 200)

    @needs("nginx", "openssl")
    def test_an_office_that_takes_no_connection(self):
        """It is reached no more since its queue is full: a reader of a table waits for five
        seconds."""
        with socket.create_server(("127.0.0.1", 0),
                                  backlog=0) as listener, contextlib.ExitStack() as held:
            port = listener.getsockname()[1]
            for _ in range(4):
                waiting = held.enter_context(socket.socket())
                waiting.setblocking(False)
                waiting.connect_ex(("127.0.0.1", port))
            front = held.enter_context(proxy(port))
            def waits(target, name):
                began = time.monotonic()
                self.assertEqual(front.ask("GET", target, name=name).status, 504, target)
                took = time.monotonic() - began
                # (without the limit of deploy/nginx.conf it would be a minute)
                self.assertLess(4, took)
                self.assertLess(took, 40)

            for target, name in (("/con/c1", None), ("/now/con/c1", "clara")):
                with self.subTest(target=target, name=name):
                    tries(lambda: waits(target, name))

    def test_who_waits_longer(self):
        """The proxy waits for an answer, and readers for one that is on its way, as long as the
        recorder does for the office; and longer than it waits for an office that starts again."""
        recorder, text = loaded("recorder.py"), "".join(
            file.read_text(encoding="utf-8")
            for file in (DEPLOY / "nginx.conf", DEPLOY / "nginx/kept.conf"))
        self.assertEqual(set(re.findall(r"^ *(\w+) (\d+)s;", text, re.M)) & {
            (name, f"{recorder.PATIENCE}")
            for name in ("proxy_read_timeout", "proxy_cache_lock_age", "proxy_cache_lock_timeout")},
                         {("proxy_read_timeout", "300"), ("proxy_cache_lock_age", "300"),
                          ("proxy_cache_lock_timeout", "300")})
        self.assertEqual(recorder.WAIT, 60)
