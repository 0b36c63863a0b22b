#!/usr/bin/env python3
"""Measures tables asked of the proxy of `deploy/`, from its cache and without one, beside the desk alone.

Clients ask for the tally of a constituency of 60 lists and 100 closed stations, or as many as are given. They ask a proxy
over TLS, each on one connection that stays open: the proxy as it is, and one without its cache. They ask the desk itself
without TLS, on a new connection for each message. All run on this machine, so the clients take processors from what they
ask. Rates are medians of the rounds, in which the three are asked in turn.

    bench/proxy.py [--program PATH] [--rounds N] [--clients N] [--requests N] [--lists N] [--stations N]
"""

import argparse
import os
import re
import statistics
import subprocess
import sys
import tempfile
from pathlib import Path

# The modules imported from here are not to be left beside it in compiled form.
sys.dont_write_bytecode = True
sys.path.insert(0, str(Path(__file__).resolve().parent.parent))
from tests.support import site
from tests.support.office import CONSTITUENCY, PROFILE, party_list, station
from tests.support.proxy import NGINX, Proxy

# Clients in a process of their own: threads that ask, over TLS or without. Where one of them fails,
# so does the process.
CLIENT = """
import socket, ssl, sys, time
from concurrent.futures import ThreadPoolExecutor
port, certificate, first, clients, asks = int(sys.argv[1]), sys.argv[2], *map(int, sys.argv[3:])
tls = ssl.create_default_context(cafile=certificate) if certificate else None
request = b"GET /con/c1/tally HTTP/1.1\\r\\nHost: office.example\\r\\n\\r\\n"

def connected(client):
    there = socket.create_connection(("127.0.0.1", port), timeout=60, source_address=(f"127.0.9.{first + client + 1}", 0))
    return tls.wrap_socket(there, server_hostname="office.example") if tls else there

def read(client):
    it = connected(client) if tls else None
    for _ in range(asks):
        it = it if tls else connected(client)
        it.sendall(request)
        answer = b""
        # (a head alone ends like a body)
        while b"\\r\\n\\r\\n" not in answer[:-4] or not answer.endswith(b"\\n"):
            part = it.recv(65536)
            if not part:
                sys.exit(f"ended after {answer[:60]}")
            answer += part
        if not answer.startswith(b"HTTP/1.1 200 "):
            sys.exit(f"answered {answer[:60]}")
        if not tls:
            it.close()

began = time.monotonic()
with ThreadPoolExecutor(clients) as threads:
    list(threads.map(read, range(clients)))
print(clients * asks / (time.monotonic() - began))
"""


def setup(many, stations):
    lists = "".join(party_list(f"L{n}", f"List {n}", f"First of {n}") for n in range(many))
    return PROFILE + CONSTITUENCY + lists + "".join(station(f"s{n}", 100_000) for n in range(stations))


def fill(port, lists, stations):
    rows = "".join(f"s{n},p{n},0,0{''.join(f',{n + k}' for k in range(lists))}\n" for n in range(stations))
    head = "station,slip,blank,spoiled" + "".join(f",L{n}" for n in range(lists))
    assert site.plain(port, "POST", "/con/c1/import", f"{head}\n{rows}").status == 200
    for n in range(stations):
        assert site.plain(port, "POST", f"/station/s{n}/close", '{"rev":1}').status == 200


def rate(port, certificate, clients, asks, processes=2):
    """Requests a second of all clients together."""
    each = clients // processes
    started = [subprocess.Popen([sys.executable, "-c", CLIENT, str(port), certificate, str(n * each), str(each), str(asks)],
                                stdout=subprocess.PIPE, text=True) for n in range(processes)]
    return sum(float(one.communicate(timeout=600)[0]) for one in started)


def without(front, what):
    """Takes lines out of what a proxy that is not yet started does with tables."""
    part = front.folder / "office/table.conf"
    part.write_text(re.sub(rf"(?m)^({what}).*;$", "", part.read_text(encoding="utf-8")), encoding="utf-8")


def measure(given):
    with site.serving(setup(given.lists, given.stations)) as desk:
        fill(desk.port, given.lists, given.stations)
        cached, bare = Proxy(desk.port), Proxy(desk.port)
        bare.folder = Path.cwd() / "bare"
        try:
            for front in (cached, bare):
                front.configure()
                without(front, "limit_req")  # which such clients reach, and is not what is measured
            without(bare, "proxy_cache")
            for front in (cached, bare):
                front.start()
            asked = {"the proxy, from its cache": (cached.port, f"{cached.folder}/office/certificate.pem", given.requests),
                     "the proxy, without a cache": (bare.port, f"{bare.folder}/office/certificate.pem", given.requests // 10),
                     "the desk alone": (desk.port, "", given.requests // 10)}
            rates = {name: [] for name in asked}
            for _ in range(given.rounds):
                for name, (port, certificate, requests) in asked.items():
                    rates[name].append(rate(port, certificate, given.clients, max(1, requests // given.clients)))
        finally:
            cached.end()
            bare.end()
    for name, found in rates.items():
        print(f"{name}: {statistics.median(found):.0f} a second, {min(found):.0f} to {max(found):.0f}")


def main():
    command = argparse.ArgumentParser(description=__doc__.splitlines()[0])
    command.add_argument("--program", type=Path, default=site.PROGRAM)
    command.add_argument("--rounds", type=int, default=5)
    command.add_argument("--clients", type=int, default=50)
    command.add_argument("--requests", type=int, default=20_000)
    command.add_argument("--lists", type=int, default=60)
    command.add_argument("--stations", type=int, default=100)
    given = command.parse_args()
    site.PROGRAM = given.program.resolve()
    if not NGINX:
        sys.exit("nginx is not there")
    with tempfile.TemporaryDirectory(prefix="office-proxy-") as folder:
        os.chdir(folder)
        measure(given)
        os.chdir("/")


if __name__ == "__main__":
    main()
