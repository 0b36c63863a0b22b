"""Ports from the lowest to the highest, and the examples of the help texts."""

import contextlib
import json
import random
import re
import shlex
import shutil
import socket
import subprocess

from tests.support.case import PROGRAM, ROOT
from tests.support.desk import Desk
from tests.support.office import SETUP
from tests.support.program import STARTED, ProgramCase, Ran, end_all, new, office, write
from tests.support.running import PATIENCE, free_port

COMMANDS = ("check", "allot", "recount", "new", "import", "show", "serve")


def is_free(port):
    with contextlib.suppress(OSError), socket.create_server(("127.0.0.1", port)):
        return True
    return False


def ports():
    """Free ports of each part of the range: near powers of two, near the ends, and at random. Those
    below 1024 are free for who may listen there."""
    draw = random.Random()
    parts = [range(1, 20), range(1024, 1100), range(16380, 16390), range(32760, 32768)]
    parts += [range(32768, 32800), range(40000, 40100), range(49150, 49250), range(65500, 65536)]
    parts += [draw.sample(range(1024, 65536), 50) for _ in range(3)]
    return [next(filter(is_free, part), None) for part in parts] + [65535]


class Ports(ProgramCase):
    def test_ports_over_the_whole_range(self):
        new(SETUP)
        found = [port for port in ports() if port and is_free(port)]
        self.assertTrue(any(port > 32767 for port in found), found)
        for port in sorted(set(found)):
            with self.subTest(port=port):
                desk = Desk("office.db", 1, port)
                self.assertEqual(desk.ask("GET", "/progress")[0], 200)
                self.assertEqual(desk.end(), Ran(0, "answered 1 failed 0\n", ""))

    def test_numbers_that_are_no_ports(self):
        new(SETUP)
        for port in ("0", "65536", "-1", "8080.0", "", "port"):
            with self.subTest(port=port):
                ran = office("serve", "--db", "office.db", f"--port={port}", "--count", "1")
                self.assertEqual((ran.status, ran.out), (2, ""))


def help_of(*words):
    ran = office(*words, "--help")
    return ran.out + ran.err


def block(text):
    """The lines of a text that are deeper than those of its words."""
    lines = re.match(r"\n*((?: {4}.*\n|\n)*)", text)[1].rstrip("\n").split("\n")
    return "".join(line[4:] + "\n" for line in lines)


class HelpTexts(ProgramCase):
    def test_the_first_session(self):
        """Each of its lines is a command line; what it needs is what the lines before leave."""
        shutil.copy(ROOT / "examples/setup.toml", ".")
        shutil.copy(ROOT / "examples/returns.csv", ".")
        shutil.copy(ROOT / "examples/votes.csv", ".")
        lines = re.findall(r"^ +(office .*)$", help_of(), re.M)
        lines = [line for line in lines if "COMMAND" not in line]
        self.assertEqual(sorted({line.split()[1] for line in lines}), sorted(COMMANDS))
        for line in lines:
            with self.subTest(line=line):
                if line.startswith("office serve"):
                    self.serves(line)
                    end_all()
                    continue
                ran = self.shell(line)
                # Montehondo is not certified at the end.
                at_end = "--report seats" in line
                self.assertEqual(ran.err, "refused: not_certified\n" if at_end else "")
                self.assertEqual(ran.status, 1 if at_end else 0)

    def shell(self, line):
        line = line.replace("office", shlex.quote(str(PROGRAM)), 1)
        ran = subprocess.run(
            ["bash", "-c", line], stdin=subprocess.DEVNULL, capture_output=True, timeout=PATIENCE
        )
        return Ran(ran.returncode, ran.stdout.decode(), ran.stderr.decode())

    def serves(self, line, port=None):
        """Starts a server of a line, at a port that is free; it listens."""
        words = shlex.split(re.sub(r"--port \d+", f"--port {port or free_port()}", line))
        process = subprocess.Popen(
            [PROGRAM, *words[1:]], stdout=subprocess.PIPE, stderr=subprocess.PIPE
        )
        STARTED.append(process)
        self.assertIn(b"listening on 127.0.0.1:", process.stderr.readline())
        return process

    def example(self, command):
        """The files of a command's example, its line, and the text after that.

        The setup of a recount is that of the example of `new`.
        """
        text = re.search(r"^Example:\n(.*?)^Exit status:", help_of(command), re.M | re.S)[1]
        files = re.findall(r"\bthis(?: text)? in (\S+)\n(.*?)(?=\n  '|\Z)", text, re.S)
        line, rest = re.search(r"'(office (?!new --help)[^']*)'(.*)", text, re.S).groups()
        return {name: block(body) for name, body in files}, line, rest

    def test_the_examples_of_all_commands(self):
        """An office is made, takes a return, and closes it; each text is printed as it is shown."""
        for command in ("check", "allot", "new", "recount", "import", "serve", "show"):
            with self.subTest(command=command):
                files, line, rest = self.example(command)
                if command == "recount":
                    setup = "With the setup.toml that 'office new --help' shows, and this in"
                    self.assertIn(setup, help_of(command))
                    self.assertEqual(list(files), ["returns.csv"])
                for name, text in files.items():
                    write(name, text)
                if command == "serve":
                    self.serves_its_example(line, rest)
                    continue
                self.assertTrue(rest.startswith(" prints\n"), rest)
                wanted = block(rest.removeprefix(" prints\n"))
                self.assertEqual(self.shell(line), Ran(0, wanted, ""))

    def serves_its_example(self, line, rest):
        port = free_port()
        process = self.serves(line, port)
        asked = re.search(r"^ +curl -d '(.*)' http://127\.0\.0\.1:\d+(\S+)$", rest, re.M)
        body, target = asked.groups()
        connection = socket.create_connection(("127.0.0.1", port), timeout=PATIENCE)
        with connection:
            head = f"POST {target} HTTP/1.1\r\nContent-Length: {len(body)}\r\n\r\n"
            connection.sendall(head.encode() + body.encode())
            answer = b"".join(iter(lambda: connection.recv(65536), b"")).decode()
        said = re.search(r"prints (\{.*?\})", rest)[1]
        self.assertEqual(json.loads(answer.partition("\r\n\r\n")[2]), json.loads(said))
        out, _ = process.communicate(timeout=PATIENCE)
        self.assertEqual(out.decode(), block(rest.rpartition("prints\n")[2]))
