#!/usr/bin/env python3
"""Measures requests over TCP, of one client that opens a connection for each request.

A constituency has 60 lists and 5,000 stations. Returns are lodged and closed, and the tally and the
constituency are shown. The same messages go to four servers: `office serve` on a database in a file, and
in /dev/shm; the office's desk over a keeper in memory (`serve_office.rattle`); and a server over the same
crates of the kit that has neither desk nor store (`serve_alone.rattle`). So their differences are what
the disk, the store and the desk cost. What they answer is compared byte for byte.

The servers are asked in turn. A time is that of the clock, from the first request of a kind to the last
answer, and beside it the processor's for the server alone; both are medians of the rounds. Of the
processor's the least of the rounds is printed too.

Then messages whose heads have 16,384 bytes are sent whole and byte by byte: over TCP to the desk over a
keeper in memory, where each byte is a call of the system, and to a small proved program
(`message_office.rattle`), which times the reading alone.

With `--part` only the parts that are named are measured, with `--server` only these servers; the last two
of them and the long heads need no program.

    bench/serve.py [--program PATH] [--built FOLDER] [--rounds N] [--requests N] [--folder PATH]
                   [--part NAME..] [--server NAME..]
"""

import argparse
import os
import shutil
import socket
import statistics
import subprocess
import sys
import tempfile
from pathlib import Path

# The modules imported from here are not to be left beside it in compiled form.
sys.dont_write_bytecode = True
from building import PROGRAM, build_office, processor
from check import LISTS, codes
from databases import MEMORY, Con, closes_of, make, setup_of
from serving import Server, free_port, get, office, post, rest_of

STATIONS = 5_000

HEAD_BYTES = 16_384

# How many messages are sent whole, and byte by byte, and how often the program reads one.
WHOLE_MESSAGES = 200
PIECED_MESSAGES = 5
READS = 200

# At most this many microseconds a request may be spent in the desk, and this many times as long may
# a message take that comes byte by byte.
DESK_GOAL = 100
PIECES_GOAL = 10

# The parts that are measured, and the servers.
PARTS = ["requests", "pieces"]
SERVERS = ["file", "/dev/shm", "desk", "alone"]

# The programs beside the office, and the libraries that each is built over.
PROGRAMS = {
    "serve_alone": ["@rattle//httparse", "@rattle//serde_json"],
    "serve_office": ["//crates/tally_core", "//crates/tally_desk", "//crates/tally_rules"],
    "message_office": ["//crates/tally_desk_message"],
}


def kinds_of(con, asked):
    """This many messages of each kind, in the order in which they are asked."""
    lodges = [
        post(f"/station/{station}/lodge", {"slip": slip, "votes": votes, "blank": blank, "spoiled": spoiled})
        for station, slip, (blank, spoiled, *votes) in con.returns()[:asked]
    ]
    return {
        "lodge": lodges,
        "close": closes_of(con)[:asked],
        "GET tally": [get(f"/con/{con.code}/tally")] * asked,
        "GET con": [get(f"/con/{con.code}")] * asked,
    }


def start(name, folder, program, built, count):
    """The server of this name, started again, on a database without returns."""
    if name == "desk":
        return beside(built["serve_office"], [folder / "setup.toml"], count)
    if name == "alone":
        return beside(built["serve_alone"], [folder / "lists", STATIONS], count)
    return office(program, copied(folder, folder if name == "file" else MEMORY), count)


def copied(folder, place):
    """A copy of the database in a place."""
    copy = served_in(place)
    shutil.copy(folder / "new.db", copy)
    return copy


def served_in(place):
    return place / f"served-{os.getpid()}.db"


def remove_served(folder):
    for place in (folder, MEMORY):
        for end in ("", "-wal"):
            Path(f"{served_in(place)}{end}").unlink(missing_ok=True)


def beside(program, words, count):
    port = free_port()
    return Server([program, *words, port, count], port)


def measure(folder, program, built, con, names, rounds, asked):
    """The microseconds of a request by kind and server: medians of the clock's and of the processor's, and
    the least of the processor's."""
    kinds = kinds_of(con, asked)
    taken, answers = {kind: {} for kind in kinds}, {}
    for _ in range(rounds):
        for name in names:
            try:
                with start(name, folder, program, built, asked * len(kinds)) as server:
                    for kind, messages in kinds.items():
                        found = server.ask_all(messages)
                        taken[kind].setdefault(name, []).append((found.clock, found.spent))
                        if answers.setdefault(kind, found.answers) != found.answers:
                            sys.exit(f"{name} answers {kind} in another way")
            finally:
                remove_served(folder)
    return {
        kind: {name: medians_and_least(times) for name, times in by_name.items()} for kind, by_name in taken.items()
    }


def medians_and_least(times):
    clocks, spents = zip(*times)
    return statistics.median(clocks), statistics.median(spents), min(spents)


def show(taken):
    """Prints the times: the most that the desk adds to the server alone, by the processor."""
    names = list(next(iter(taken.values())))
    both = "desk" in names and "alone" in names
    heads = ["requests a second, by the clock", "us a request, of the processor", "the least of the rounds"]
    for place, head in enumerate(heads):
        print(f"\n{head:34} " + "".join(f"{name:>11}" for name in names) + ("   desk - alone, us" if both else ""))
        for kind, by_name in taken.items():
            times = {name: found[place] for name, found in by_name.items()}
            texts = "".join(f"{1e6 / time if place == 0 else time:11,.1f}" for time in times.values())
            added = f"{times['desk'] - times['alone']:19.1f}" if both else ""
            print(f"  {kind:32} {texts} {added}")
    return max(by_name["desk"][1] - by_name["alone"][1] for by_name in taken.values()) if both else 0


def head_of(fields):
    """A request for the progress whose head has just as many bytes as it may have, in this many fields."""
    start = b"GET /progress HTTP/1.1\r\n"
    names = [b"x-%02d: " % place for place in range(fields)]
    left = HEAD_BYTES - len(start) - 2 - sum(len(name) + 2 for name in names)
    share, rest = divmod(left, fields)
    values = [b"v" * (share + (place < rest)) for place in range(fields)]
    head = start + b"".join(name + value + b"\r\n" for name, value in zip(names, values)) + b"\r\n"
    assert len(head) == HEAD_BYTES
    return head


def lines_before():
    """A request for the progress after as many empty lines as there may be."""
    request = b"GET /progress HTTP/1.1\r\n\r\n"
    return b"\r\n" * ((HEAD_BYTES - len(request)) // 2) + request


def ask_by_bytes(server, message):
    """The answer to a message that is sent a byte at a time."""
    with socket.create_connection(("127.0.0.1", server.port), timeout=60) as connection:
        connection.setsockopt(socket.IPPROTO_TCP, socket.TCP_NODELAY, 1)
        for byte in message:
            connection.send(bytes([byte]))
        return rest_of(connection)


def pieces(folder, built, rounds):
    """Prints what a long head takes whole and by bytes: the greatest ratio of the medians."""
    most = 0
    print(f"\n{f'a head of {HEAD_BYTES:,} bytes':31} whole us     least   by bytes us      least   ratio   of the least")
    for name, message in {"1 field": head_of(1), "64 fields": head_of(64), "empty lines first": lines_before()}.items():
        path = folder / "message"
        path.write_bytes(message)
        ways = {
            "read alone": lambda: [read_alone(built["message_office"], path, step) for step in (HEAD_BYTES, 1)],
            "over TCP": lambda: over_tcp(folder, built["serve_office"], message),
        }
        for way, measured in ways.items():
            times = list(zip(*(measured() for _ in range(rounds))))
            whole, pieced = map(statistics.median, times)
            least, least_pieced = map(min, times)
            most = max(most, pieced / whole)
            print(
                f"  {name:17} {way:10} {whole:9.1f} {least:9.1f} {pieced:13.1f} {least_pieced:10.1f}"
                f" {pieced / whole:7.2f} {least_pieced / least:14.2f}",
                flush=True,
            )
    return most


def read_alone(program, path, step):
    """The microseconds of the thread in which a message is read that comes by pieces of this many bytes."""
    ran = subprocess.run([program, path, str(step), str(READS)], capture_output=True, text=True, check=True)
    nanoseconds, read = map(int, ran.stdout.split())
    if read != READS:
        sys.exit("a message is not read")
    return nanoseconds / 1000


def over_tcp(folder, program, message):
    """The microseconds of the desk's processor for a message that comes whole, and by bytes."""
    with beside(program, [folder / "setup.toml"], WHOLE_MESSAGES + PIECED_MESSAGES) as server:
        whole = server.ask_all([message] * WHOLE_MESSAGES)
        before = server.spent()
        answers = [ask_by_bytes(server, message) for _ in range(PIECED_MESSAGES)]
        spent = (server.spent() - before) / 1000 / PIECED_MESSAGES
    if set(answers) != set(whole.answers):
        sys.exit("a message that comes byte by byte is answered in another way")
    return whole.spent, spent


def main():
    parser = argparse.ArgumentParser(description="Measures requests over TCP against a plain server.")
    parser.add_argument("--program", type=Path, default=PROGRAM, help="the built program")
    parser.add_argument("--built", type=Path, help="a folder with the other programs, where they are built already")
    parser.add_argument("--rounds", type=int, default=5, help="how often each server is asked")
    parser.add_argument("--requests", type=int, default=500, help="how many requests of a kind are asked in a round")
    parser.add_argument("--folder", type=Path, help="where the files are made, on the disk that is measured")
    parser.add_argument("--part", choices=PARTS, nargs="+", default=PARTS, help="what is measured")
    parser.add_argument("--server", choices=SERVERS, nargs="+", default=SERVERS, help="which servers are asked")
    args = parser.parse_args()
    names = [name for name in SERVERS if name in args.server and (name != "/dev/shm" or MEMORY.is_dir())]
    stored = "requests" in args.part and not {"file", "/dev/shm"}.isdisjoint(names)
    if stored and not args.program.is_file():
        sys.exit(f"{args.program} is not built: run ./office check < examples/returns.csv first")
    program = args.program.resolve()
    with tempfile.TemporaryDirectory(dir=args.folder) as folder:
        folder = Path(folder)
        if args.built:
            built = {name: args.built.resolve() / name for name in PROGRAMS}
        else:
            built = {name: build_office(folder, name, libraries) for name, libraries in PROGRAMS.items()}
        print(f"{os.cpu_count()} processors, {processor()}, load {os.getloadavg()[0]:.1f}, {args.rounds} rounds")
        print(f"of {args.requests} requests of a kind; {LISTS} lists, {STATIONS:,} stations", flush=True)
        con = Con(codes("station", STATIONS))
        (folder / "setup.toml").write_text(setup_of([con]))
        if stored:
            make(program, folder, "new.db", [con])
        (folder / "lists").write_text("".join(f"{code}\n" for code in con.lists))
        added = ratio = 0
        if "requests" in args.part:
            added = show(measure(folder, program, built, con, names, args.rounds, args.requests))
        if "pieces" in args.part:
            ratio = pieces(folder, built, args.rounds)
    if added > DESK_GOAL or ratio > PIECES_GOAL:
        sys.exit(f"\nthe desk adds more than {DESK_GOAL} us, or a message by bytes takes more than {PIECES_GOAL} times as long")


if __name__ == "__main__":
    main()
