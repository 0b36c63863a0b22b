#!/usr/bin/env python3
"""Runs an election as large as that of Spain's Congress of Deputies, and prints its times.

    bench/spain.py
    bench/spain.py --stations 5000 --program crates/tally_office/out/tally_office

52 constituencies have 350 seats, 15 lists each and 60,000 stations, of which Madrid has 8,200. An
office is made, takes the returns over HTTP, closes them, certifies, publishes its pages and files,
and is counted again from its database and from the published returns. A time is that of the clock.
Beside it are the seconds on a processor: of the office while it serves, else of the command. With
fewer stations all shrink alike. The exit status is 1 if the office refuses something, or a recount
differs.
"""

import argparse
import http.client
import json
import os
import random
import resource
import subprocess
import sys
import tempfile
import time
from contextlib import closing, contextmanager
from pathlib import Path

ROOT = Path(__file__).resolve().parent.parent
PROGRAM = ROOT / "crates/tally_office/out/tally_office"
STATIONS = 60_000
LISTS = [f"L{n:02}" for n in range(1, 16)]
# The seats of each constituency at the general election of 23 July 2023.
SEATS = {
    "Madrid": 37, "Barcelona": 32, "Valencia": 16, "Alicante": 12, "Sevilla": 12, "Malaga": 11,
    "Murcia": 10, "Cadiz": 9, "Coruna": 8, "Baleares": 8, "Las-Palmas": 8, "Bizkaia": 8,
    "Asturias": 7, "Granada": 7, "Pontevedra": 7, "Tenerife": 7, "Zaragoza": 7, "Almeria": 6,
    "Cordoba": 6, "Gipuzkoa": 6, "Girona": 6, "Tarragona": 6, "Toledo": 6, "Badajoz": 5,
    "Cantabria": 5, "Castellon": 5, "Ciudad-Real": 5, "Huelva": 5, "Jaen": 5, "Navarra": 5,
    "Valladolid": 5, "Alava": 4, "Albacete": 4, "Burgos": 4, "Caceres": 4, "Leon": 4, "Lleida": 4,
    "Lugo": 4, "Ourense": 4, "La-Rioja": 4, "Salamanca": 4, "Avila": 3, "Cuenca": 3,
    "Guadalajara": 3, "Huesca": 3, "Palencia": 3, "Segovia": 3, "Teruel": 3, "Zamora": 3,
    "Soria": 2, "Ceuta": 1, "Melilla": 1,
}
# Above this, a constituency has to say that it is large.
NORMAL = 5_000


def spread(total):
    """The number of stations of each constituency: Madrid and Barcelona have most of them."""
    found = {"Madrid": total * 8_200 // STATIONS, "Barcelona": total * 6_800 // STATIONS}
    left = total - sum(found.values())
    weights = {con: max(seats - 2, 0.5) for con, seats in SEATS.items() if con not in found}
    found |= {con: max(1, int(left * weight / sum(weights.values())))
              for con, weight in weights.items()}
    found["Valencia"] += total - sum(found.values())
    return {con: found[con] for con in SEATS}


def stations_of(number, count):
    return [f"{number:02}-{n:05}" for n in range(1, count + 1)]


def setup_of(stations):
    """The setup. Some stations have agents who vote where they serve."""
    parts = ['[[profile]]\ncode = "loreg"\nmethod = "dhondt"\nthreshold = 300\nbase = "valid"\n']
    for number, (con, count) in enumerate(stations.items(), 1):
        size = 'size = "large"\n' if count > NORMAL else ""
        parts.append(f'\n[[constituency]]\ncode = "{con}"\nname = "{con.replace("-", " ")}"\n'
                     f'seats = {SEATS[con]}\nprofile = "loreg"\n{size}')
        for code in LISTS:
            names = ", ".join(f'"{con} {code} {n}"' for n in range(1, SEATS[con] + 1))
            parts.append(f'\n[[constituency.list]]\ncode = "{code}"\nname = "List {code}"\n'
                         f"candidates = [{names}]\n")
        for n, code in enumerate(stations_of(number, count)):
            agents = "agents = 2\n" if n % 10 == 0 else ""
            parts.append(f'[[constituency.station]]\ncode = "{code}"\nelectors = 800\n{agents}')
    return "".join(parts)


def returns_of(number, count, draw):
    """The CSV of a constituency: lists differ in strength, and stations by chance."""
    strengths = [draw.random() ** 3 for _ in LISTS]
    rows = [",".join(["station", "slip", "blank", "spoiled", *LISTS])]
    for code in stations_of(number, count):
        shares = [strength * draw.uniform(0.5, 1.5) for strength in strengths]
        papers = draw.randrange(350, 780)
        votes = [int(papers * share / sum(shares)) for share in shares]
        counts = [draw.randrange(9), draw.randrange(9), *votes]
        rows.append(",".join(map(str, [code, f"a{code}", *counts])))
    return "\n".join(rows) + "\n"


class Office:
    """The program as it serves, over HTTP."""

    def __init__(self, program, db):
        for port in random.sample(range(10_000, 30_000), 20):
            words = [program, "serve", "--db", db, "--port", str(port), "--count", "1000000"]
            self.port, self.process = port, subprocess.Popen(words, stderr=subprocess.PIPE)
            if self.process.stderr.readline().startswith(b"listening"):
                return
            self.process.wait()
        sys.exit("no port is free")

    def ask(self, method, path, body=None, may_be=(200,)):
        """The body of an answer, which has one of these statuses."""
        with closing(http.client.HTTPConnection("127.0.0.1", self.port, timeout=600)) as it:
            it.request(method, path, body)
            answer = it.getresponse()
            text = answer.read().decode()
        if answer.status not in may_be:
            sys.exit(f"{method} {path}: {answer.status} {text}")
        return text

    def seconds(self):
        """The seconds that the office has been on a processor."""
        return int(Path(f"/proc/{self.process.pid}/schedstat").read_text().split()[0]) / 1e9

    def end(self):
        self.process.terminate()
        self.process.wait()
        self.process.stderr.close()


def seconds_of_commands():
    """The seconds that the commands that have ended took of the processor."""
    used = resource.getrusage(resource.RUSAGE_CHILDREN)
    return used.ru_utime + used.ru_stime


@contextmanager
def timed(words, desk=None):
    seconds = desk.seconds if desk else seconds_of_commands
    began, spent = time.monotonic(), seconds()
    yield
    took, spent = time.monotonic() - began, seconds() - spent
    print(f"{words:38} {took:10.1f} {spent:10.1f}", flush=True)


def run(*words):
    ran = subprocess.run([str(word) for word in words], capture_output=True, text=True)
    if ran.returncode:
        sys.exit(f"{' '.join(map(str, words))}: status {ran.returncode}\n{ran.stdout}{ran.stderr}")
    return ran.stdout


def count(desk, stations, texts):
    """Imports and closes all returns, and certifies; the lots that were needed, and the seats."""
    with timed("52 imports over HTTP", desk):
        for con, text in texts.items():
            counts = json.loads(desk.ask("POST", f"/con/{con}/import", text))
            if counts["lodged"] != stations[con]:
                sys.exit(f"{con}: {counts}")
    with timed(f"{sum(stations.values()):,} returns closed", desk):
        for number, many in enumerate(stations.values(), 1):
            for code in stations_of(number, many):
                desk.ask("POST", f"/station/{code}/close", '{"rev":1}')
    lots = {}
    with timed("52 certificates", desk):
        for con in stations:
            said = json.loads(desk.ask("POST", f"/con/{con}/certify", '{"edition":1}', (200, 409)))
            if said.get("word") == "lot_missing":
                lots[con] = said["group"]
                body = json.dumps({"edition": 1, "order": said["group"]})
                desk.ask("POST", f"/con/{con}/draw", body)
                desk.ask("POST", f"/con/{con}/certify", '{"edition":2}')
            elif "refused" in said:
                sys.exit(f"{con}: {said}")
    return lots, {con: json.loads(desk.ask("GET", f"/con/{con}"))["seats"] for con in stations}


def publish(desk):
    """The pages and the files of the press, and the returns as the office shows them."""
    with timed("a round of the pages", desk):
        run(sys.executable, ROOT / "deploy/press.py", f"http://127.0.0.1:{desk.port}", "pages",
            "--setup", "setup.toml")
    Path("returns").mkdir()
    with timed("52 GETs of the returns", desk):
        for con in SEATS:
            text = desk.ask("GET", f"/con/{con}/returns")
            Path(f"returns/{con}.csv").write_text(text, encoding="utf-8")


def recount(lots, wanted):
    """Counts the election again, and compares the seats with those of the office."""
    Path("lots").write_text("".join(" ".join([con, *lot]) + "\n" for con, lot in lots.items()))
    script = ROOT / "examples/recount.py"
    with timed("recount of the database"):
        run(sys.executable, script, "office.db")
    with timed("recount of the returns"):
        said = run(sys.executable, script, "--setup", "setup.toml", "--returns", "returns",
                   "--lots", "lots")
    rows = [line.split(" (")[0].split() for line in said.splitlines()]
    found = {con: [int(seats) for seats in words[1::2]] for con, *words in rows}
    if found != wanted or sum(map(sum, found.values())) != sum(SEATS.values()):
        sys.exit(f"the seats are not those of the office: {said}")
    print(f"the same {sum(SEATS.values())} seats, with {len(lots)} lots")


def election(program, total):
    draw, stations = random.Random(2023), spread(total)
    Path("setup.toml").write_text(setup_of(stations), encoding="utf-8")
    texts = {con: returns_of(number, many, draw)
             for number, (con, many) in enumerate(stations.items(), 1)}
    with timed("office new"):
        run(program, "new", "--db", "office.db", "--setup", "setup.toml")
    desk = Office(program, "office.db")
    try:
        lots, seats = count(desk, stations, texts)
        publish(desk)
    finally:
        desk.end()
    with timed("office show, which opens it again"):
        run(program, "show", "--db", "office.db", "--report", "country")
    recount(lots, seats)


def main():
    command = argparse.ArgumentParser(
        description=__doc__, formatter_class=argparse.RawDescriptionHelpFormatter)
    command.add_argument("--stations", type=int, default=STATIONS)
    command.add_argument("--program", type=Path, default=PROGRAM)
    command.add_argument("--folder", type=Path, help="where the database is, as /dev/shm")
    given = command.parse_args()
    program = given.program.resolve()
    print(f"{os.cpu_count()} processors, load {os.getloadavg()[0]:.1f}")
    print(f"{'':38} {'seconds':>10} {'processor':>10}", flush=True)
    with tempfile.TemporaryDirectory(dir=given.folder) as folder:
        os.chdir(folder)
        election(program, given.stations)
        os.chdir("/")
    return 0


if __name__ == "__main__":
    sys.exit(main())
