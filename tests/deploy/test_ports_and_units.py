"""Who reaches the office on its computer, by nftables and the units; the proxy as a service; its
ciphers."""

import contextlib
import ctypes
import io
import os
import re
import signal
import socket
import subprocess
import sys
import time
from pathlib import Path
from unittest import mock

from tests.support.case import needs
from tests.support.desks import recording_desk
from tests.support.running import PATIENCE
from tests.support.safeguards import Safeguards, site
from tests.support.scripts import loaded, module
from tests.support.site import DEPLOY

STEPS = (DEPLOY / "BY_HAND.md").read_text(encoding="utf-8")
# The users of the steps, under numbers that no machine needs to know.
USERS = {
    "root": 0,
    "www-data": 64001,
    "office": 64002,
    "office-recorder": 64003,
    "office-press": 64004,
    "nobody": 65534,
}
NEW_NETWORK = 0x40000000
# The unit of Debian 12, which the drop-in goes with.
DEBIAN = """[Unit]
Description=A high performance web server and a reverse proxy server
[Service]
Type=forking
PIDFile=/run/nginx.pid
ExecStartPre=/usr/sbin/nginx -t -q -g 'daemon on; master_process on;'
ExecStart=/usr/sbin/nginx -g 'daemon on; master_process on;'
ExecReload=/usr/sbin/nginx -g 'daemon on; master_process on;' -s reload
TimeoutStopSec=5
KillMode=mixed
"""


def rules():
    """The rules of step 7, as they are to be typed."""
    step = STEPS.split("**7. Nobody else on this computer.**")[1].split("\n## ")[0]
    return re.findall("^    nft '?(add .*?)'?$", step, re.M)


def numbered(text):
    """Rules with the numbers of the users in the place of their names."""
    return re.sub("(?<=[{,] )[a-z-]+(?=[ ,])",
                  lambda found: str(USERS.get(found[0], found[0])), text)


def loaded_rules():
    """Loads the rules of the steps in a network that this process has from now on, if it may."""
    if ctypes.CDLL(None, use_errno=True).unshare(NEW_NETWORK):
        return False
    subprocess.run(["ip", "link", "set", "lo", "up"], check=True, timeout=PATIENCE)
    done = subprocess.run(["nft", "-f", "-"], input=numbered("\n".join(rules())), text=True,
                          capture_output=True, timeout=PATIENCE)
    if not done.returncode:
        return True
    assert "Operation not" in done.stderr or "not supported" in done.stderr, done.stderr
    return False


def become(user):
    os.setgroups([])
    os.setgid(user)
    os.setuid(user)


def reaches(port, user):
    """Whether a user connects to a port of this network: a child, which alone becomes that user."""
    child = os.fork()
    if not child:
        try:
            become(user)
            socket.create_connection(("127.0.0.1", port), timeout=5).close()
            os._exit(0)
        except OSError:
            os._exit(1)
    return os.waitstatus_to_exitcode(os.waitpid(child, 0)[1]) == 0


def answers(port, user):
    """Whether root is answered at a port of this network where a user listens: a child does."""
    ready, told = os.pipe()
    child = os.fork()
    if not child:
        try:
            become(user)
            with socket.create_server(("127.0.0.1", port)):
                os.write(told, b"1")
                time.sleep(PATIENCE)
        finally:
            os._exit(1)
    try:
        os.read(ready, 1)
        socket.create_connection(("127.0.0.1", port), timeout=1).close()
        return True
    except OSError:
        return False
    finally:
        os.kill(child, signal.SIGKILL)
        os.waitpid(child, 0)
        os.close(ready)
        os.close(told)


class Ports(Safeguards):
    def test_the_rules_of_the_steps(self):
        found = dict(
            re.findall(r"tcp dport (\d+) meta skuid != \{ ([^}]*) \} reject", "\n".join(rules()))
        )
        self.assertEqual(found, {"8080": "root, office-recorder", "8090": "root, office-press"})
        found = re.findall(r"tcp sport (\d+) meta skuid != \{ ([^}]*) \} drop", "\n".join(rules()))
        self.assertEqual(found, [("8080", "root, office"), ("8090", "root, office-recorder")])

    def test_the_ports_that_status_tries(self):
        """That of the desk, and that at which the reader answers the press pages."""
        status = loaded("status")
        usual = dict.fromkeys(("desk", "rules", "reader", "reader_port", "recorder", "backups",
                               "closed_to"), "") | {"name": "1"}
        ports = {"desk": "127.0.0.1:1", "reader_port": "127.0.0.1:2"}
        for open_port, wanted in (("127.0.0.1:1", {"port": False, "reader_port": True}),
                                  ("127.0.0.1:2", {"port": True, "reader_port": False})):
            def tried(user, port, reached=open_port):
                return f"{user} reaches it" if port == reached else None

            with mock.patch.object(status.looks, "tried_as", tried):
                for closed_to in ("nobody", ""):
                    found = status.look_at_office(usual | ports | {"closed_to": closed_to}, {})
                    self.assertEqual({one.part: one.is_well for one in found if one.part != "desk"},
                                     wanted if closed_to else {})

    @needs("nft", "ip")
    def test_which_users_reach_which_port(self):
        """Nobody but root and the recorder reaches the office."""
        self.in_its_own_network(self.in_a_network)

    @needs("nft", "ip")
    def test_who_answers_at_which_port(self):
        """Another user who listens there while the office restarts is not heard."""
        self.in_its_own_network(self.heard_in_a_network)

    def in_its_own_network(self, act):
        """Runs an act in a child, which makes a network of its own: 77 says that it cannot."""
        if os.geteuid():
            self.skipTest("it needs root")
        child = os.fork()
        if not child:
            try:
                os._exit(act())
            except BaseException as error:  # whatever it is, the child ends here
                print(repr(error), file=sys.stderr)
                os._exit(99)
        status = os.waitstatus_to_exitcode(os.waitpid(child, 0)[1])
        if status == 77:
            self.skipTest("no network of its own, or no nftables, on this machine")
        self.assertEqual(status, 0)

    @staticmethod
    def in_a_network():
        if not loaded_rules():
            return 77
        # (a user who may not read Python's own files has loaded what it needs)
        "127.0.0.1".encode("idna")
        listeners = [socket.create_server(("127.0.0.1", port), backlog=64) for port in (8080, 8090)]
        found = {
            name: tuple(reaches(port, number) for port in (8080, 8090))
            for name, number in USERS.items()
        }
        wanted = dict.fromkeys(USERS, (False, False)) | {
            "root": (True, True),
            "office-recorder": (True, False),
            "office-press": (False, True),
        }
        print(found, file=sys.stderr) if found != wanted else None
        # `status` sees whether the rules are there.
        looks = [module("status_looks").look_at_port("127.0.0.1:8080", "nobody", "", "1").says]
        subprocess.run(["nft", "flush", "ruleset"], check=True, timeout=PATIENCE)
        looks.append(module("status_looks").look_at_port("127.0.0.1:8080", "nobody", "", "1").says)
        for listener in listeners:
            listener.close()
        said = ["nobody is refused", "nobody reaches it: its rules are not loaded"]
        print(looks, file=sys.stderr) if looks != said else None
        return int(found != wanted or looks != said)

    @staticmethod
    def heard_in_a_network():
        if not loaded_rules():
            return 77
        heard = {name: tuple(answers(port, USERS[name]) for port in (8080, 8090))
                 for name in ("root", "office", "office-recorder", "nobody")}
        wanted = {"root": (True, True), "office": (True, False), "office-recorder": (False, True),
                  "nobody": (False, False)}
        print(heard, file=sys.stderr) if heard != wanted else None
        return int(heard != wanted)

    @needs("nft", "ip", "grep")
    def test_open_port_of_office_site(self):
        """The rules of office-site, loaded by its unit in a network of its own: nobody but root
        reaches a desk, and with --open-port everybody, in either order."""
        self.in_its_own_network(self.with_an_open_port)

    @staticmethod
    def with_an_open_port():
        if ctypes.CDLL(None, use_errno=True).unshare(NEW_NETWORK):
            return 77
        subprocess.run(["ip", "link", "set", "lo", "up"], check=True, timeout=PATIENCE)
        probe = subprocess.run(["nft", "list", "tables"], capture_output=True, timeout=PATIENCE)
        if probe.returncode:
            return 77
        # (a user who may not read Python's own files has loaded what it needs)
        "127.0.0.1".encode("idna")
        tool, machine = loaded("office-site"), module("site_machine").Machine(Path.cwd())
        tool.SHARE = DEPLOY / "package"
        site = machine.at("/etc/office/one")
        site.mkdir(parents=True)
        (site / "ports").write_text("DESK=8080\nREAD=8180\n", encoding="utf-8")
        unit = (DEPLOY / "package/office-ports.service").read_text(encoding="utf-8")
        acts = dict(re.findall(r"^(ExecStart|ExecReload)=/bin/sh -c '(.*)'$", unit, re.M))
        found = []
        with (socket.create_server(("127.0.0.1", 8080), backlog=64),
              socket.create_server(("127.0.0.1", 8180), backlog=64)):
            # None asks for nothing: what was asked for before stays.
            for act, asked in (("ExecStart", True), ("ExecReload", None), ("ExecReload", "again"),
                               ("ExecReload", True), ("ExecStart", "again")):
                if asked == "again":
                    machine.at(tool.RULES).unlink()
                with contextlib.redirect_stdout(io.StringIO()):
                    tool.write_rules(machine, ["one"], None if asked == "again" else asked)
                rules = machine.at(tool.RULES).read_text(encoding="utf-8")
                Path("rules").write_text(numbered(rules), encoding="utf-8")
                words = acts[act].replace(tool.RULES, "rules").replace("/usr/sbin/nft", "nft")
                done = subprocess.run(["/bin/sh", "-c", words], timeout=PATIENCE)
                found.append((done.returncode, reaches(8080, 0), reaches(8080, USERS["nobody"]),
                              reaches(8180, USERS["nobody"])))
        is_open, is_closed = (0, True, True, True), (0, True, False, False)
        wanted = [is_open, is_open, is_closed, is_open, is_closed]
        print(found, file=sys.stderr) if found != wanted else None
        return int(found != wanted)

    def test_what_the_units_and_the_proxy_ask(self):
        """Only the reader and the recorder, as one user, ask the office; the proxy asks their
        sockets, and the pages the reader."""
        askers = {}
        for unit in DEPLOY.glob("*.service"):
            text = unit.read_text(encoding="utf-8")
            if re.search("^ExecStart=.*127.0.0.1:8080", text, re.M):
                askers[unit.stem] = re.search("^User=(.*)$", text, re.M)[1]
        self.assertEqual(
            askers, {"office-recorder": "office-recorder", "office-reader": "office-recorder"}
        )
        press = (DEPLOY / "office-press.service").read_text(encoding="utf-8")
        self.assertIn(" http://127.0.0.1:8090 ", press)
        proxy = "".join(
            file.read_text(encoding="utf-8")
            for file in (DEPLOY / "nginx.conf", *DEPLOY.glob("nginx/*.conf"))
        )
        self.assertEqual(
            set(re.findall(r"^\s*server ([^{;]+);", proxy, re.M)),
            {"unix:/run/office-reader/1.sock", "unix:/run/office-reader/1-names.sock",
             "unix:/run/office-recorder/1.sock"},
        )
        for name in ("split", "nginx.conf"):
            self.assertNotIn("server 127.0.0.1", (DEPLOY / name).read_text(encoding="utf-8"))


class NamesOfSites(Safeguards):
    def test_a_site_that_is_called_as_something_of_the_proxy(self):
        """Each site has the files of its own folder, whatever its name has in it."""
        proxy, text = module("site_proxy"), (DEPLOY / "nginx.conf").read_text(encoding="utf-8")
        parts = {file.name: file.read_text(encoding="utf-8")
                 for file in (DEPLOY / "nginx").glob("*.conf")}
        plain = proxy.of_site(text, parts, "zz.test", 8080, True)
        self.assertIn("office/zz.test/certificate.pem", plain["site.conf"])
        for site in ("office.example.org", "my.office.example", "refused.log", "office", "8080"):
            with self.subTest(site=site):
                self.assertEqual(proxy.of_site(text, parts, site, 8080, True),
                                 {name: of.replace("zz.test", site) for name, of in plain.items()})


class Service(Safeguards):
    @needs("systemd-analyze")
    def test_the_proxy_is_kept_up_and_confined(self):
        drop_in = (DEPLOY / "nginx-office.conf").read_text(encoding="utf-8")
        Path("nginx.service").write_text(f"{DEBIAN}\n{drop_in}", encoding="utf-8")
        Path("bare.service").write_text(DEBIAN, encoding="utf-8")

        def exposure(unit):
            done = subprocess.run(
                [
                    "systemd-analyze",
                    "security",
                    "--offline=yes",
                    "--no-pager",
                    "--threshold=100",
                    unit,
                ],
                capture_output=True,
                text=True,
                timeout=PATIENCE,
            )
            return float(
                re.search(
                    r"exposure level for \S+ (\d+\.\d+)",
                    done.stdout.replace("\n", " ").replace(":", ""),
                )[1]
            )

        self.assertGreater(exposure("./bare.service"), 9)
        self.assertLess(exposure("./nginx.service"), 3)
        for line in ("Restart=always", "OOMScoreAdjust=-500", "StartLimitIntervalSec=0"):
            self.assertIn(f"\n{line}\n", drop_in)
        self.assertIn(
            "    install -m 644 deploy/nginx-office.conf "
            "/etc/systemd/system/nginx.service.d/office.conf\n",
            STEPS,
        )

    @needs("nginx", "openssl")
    def test_forward_secrecy_whatever_the_certificate(self):
        """With a certificate of RSA, which nginx's own ciphers would use to exchange keys."""
        with recording_desk() as (port, _), site(port) as front:
            front.process.terminate()
            front.process.wait(timeout=PATIENCE)
            subprocess.run(
                [
                    "openssl",
                    "req",
                    "-x509",
                    "-newkey",
                    "rsa:2048",
                    "-nodes",
                    "-days",
                    "2",
                    "-subj",
                    "/CN=office.example",
                    "-keyout",
                    front.folder / "office/key.pem",
                    "-out",
                    front.folder / "office/certificate.pem",
                ],
                check=True,
                capture_output=True,
                timeout=PATIENCE,
            )
            front.end()
            front.start()

            def accepted(cipher):
                done = subprocess.run(
                    [
                        "openssl",
                        "s_client",
                        "-connect",
                        f"127.0.0.1:{front.port}",
                        "-servername",
                        "office.example",
                        "-tls1_2",
                        "-cipher",
                        cipher,
                    ],
                    input="",
                    capture_output=True,
                    text=True,
                    timeout=PATIENCE,
                )
                return bool(re.search("Cipher is (?!\\(NONE\\))", done.stdout))

            rows = {
                "ECDHE-RSA-AES128-GCM-SHA256": True,
                "ECDHE-RSA-CHACHA20-POLY1305": True,
                "AES128-SHA": False,
                "AES256-SHA256": False,
                "AES128-GCM-SHA256": False,
                "ECDHE-RSA-AES128-SHA": False,
            }
            for cipher, wanted in rows.items():
                with self.subTest(cipher=cipher):
                    self.assertEqual(accepted(cipher), wanted)
