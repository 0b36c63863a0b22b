"""Tools in Python, each in a fork of a process that has read their modules before.

To start Python and to read a tool's modules takes a slow processor a third of a second, and tests
do it some thousand times. So a process beside them does it once, and each run is a fork of it, with
words, a folder, an environment and streams of its own. It runs the tool's file from its first line
and shares nothing with other runs. Copies of tools are started as they are; and so is whatever is
asked for help, as tests ask each tool.
"""

import atexit
import json
import os
import shutil
import signal
import socket
import struct
import subprocess
import sys
import tempfile
import threading
from pathlib import Path

from tests.support.case import ROOT

SERVER = ROOT / "tests/support/programs/forked_tools.py"
FOLDERS = (ROOT / "deploy", ROOT / "examples")
# What a fork has of the process before it, and what it can be given.
OF_PYTHON = ("LANG", "LC_ALL", "LC_CTYPE", "LD_PRELOAD", "PYTHONPATH", "PYTHONUTF8")
KNOWN = {"capture_output", "text", "input", "stdin", "timeout", "check", "cwd", "env"}


def is_tool(file):
    """Whether a file is one of the repository's tools in Python."""
    if file.parent not in FOLDERS or not file.is_file():
        return False
    with file.open("rb") as it:
        return file.suffix == ".py" or it.readline() == b"#!/usr/bin/env python3\n"


class Forks:
    """The process that has read the modules, once it is needed."""

    def __init__(self):
        self.lock, self.process, self.line, self.folder = threading.Lock(), None, None, None
        self.owner = os.getpid()
        self.of_python = {key: os.environ.get(key) for key in OF_PYTHON}

    def start(self):
        self.line, other = socket.socketpair()
        self.folder = tempfile.mkdtemp(prefix="office-tools-")
        with other:
            # (a group of its own, to end a tool with it)
            self.process = subprocess.Popen(
                [sys.executable, SERVER, str(other.fileno()), self.folder],
                cwd="/", start_new_session=True, pass_fds=[other.fileno()],
                stdin=subprocess.DEVNULL, stdout=subprocess.DEVNULL)

    def run(self, asked, files, timeout):
        """The status of a run."""
        with self.lock:
            if not self.process:
                self.start()
            try:
                self.line.settimeout(timeout)
                with memory(json.dumps(asked).encode()) as it:
                    socket.send_fds(self.line, [b"x"], [it.fileno(), *files])
                return struct.unpack("i", self.line.recv(4))[0]
            except BaseException:
                self.end()
                raise

    def end(self):
        """Ends it, and a tool that still runs."""
        if self.process and os.getpid() == self.owner:
            os.killpg(self.process.pid, signal.SIGKILL)
            self.process.wait()
            self.line.close()
            shutil.rmtree(self.folder, ignore_errors=True)
            self.process = None


FORKS = Forks()
atexit.register(FORKS.end)


def memory(data=b""):
    """A file in memory, at the beginning of these bytes."""
    it = os.fdopen(os.memfd_create("tool"), "w+b", buffering=0)
    it.write(data)
    it.seek(0)
    return it


def tool_in(words):
    """A tool and what it is given, or None where these words start something else."""
    words = [str(word) for word in words]
    words = words[1:] if words[0] == sys.executable else words
    if not words or "--help" in words or not is_tool(Path(words[0])):
        return None
    return words


def run(words, **how):
    """Runs a tool by a fork, as subprocess.run would, with the same result."""
    tool, environment = tool_in(words), dict(how.get("env") or os.environ)
    if (not tool or not how.keys() <= KNOWN or os.getpid() != FORKS.owner
            or any(environment.get(key) != value for key, value in FORKS.of_python.items())):
        return subprocess.run(words, **how)
    given, text, stdin = how.get("input"), how.get("text"), how.get("stdin")
    streams = [memory(given.encode() if text else given) if given is not None else os.fdopen(
        os.dup(stdin.fileno() if stdin else 0), "rb")]
    for number in (1, 2):
        streams.append(memory() if how.get("capture_output") else os.fdopen(os.dup(number), "wb"))
    try:
        mask = os.umask(0o77)
        os.umask(mask)
        asked = {"words": tool, "folder": str(Path(how.get("cwd") or ".").resolve()),
                 "environment": dict(how.get("env") or os.environ), "umask": mask}
        status = FORKS.run(asked, [it.fileno() for it in streams], how.get("timeout"))
        said = [it.seek(0) or it.read() for it in streams[1:]] if how.get("capture_output") else [
            None, None]
    finally:
        for it in streams:
            it.close()
    if text and how.get("capture_output"):
        said = [one.decode().replace("\r\n", "\n").replace("\r", "\n") for one in said]
    done = subprocess.CompletedProcess(words, status, *said)
    if how.get("check"):
        done.check_returncode()
    return done
