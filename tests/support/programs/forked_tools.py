"""Runs tools in Python for tests, each in a fork of this process, which has read their modules.

    python3 forked_tools.py NUMBER FOLDER

NUMBER is that of a socket. A byte comes on it for each run, with the files of what is asked, of the
input, of the output and of the errors. What is sent back is the status. In FOLDER runs leave the
templates that they have read for those that come after, as Jinja2 offers it.
"""

import ast
import builtins
import contextlib
import gc
import hashlib
import importlib
import json
import os
import socket
import struct
import sys
import types
from pathlib import Path

CODES, KEPT = {}, set()


def code_of(file):
    """The code of a tool. The modules that it names at its top are read, once."""
    if file not in CODES:
        text = Path(file).read_bytes()
        sys.path.insert(0, str(Path(file).parent))
        for node in ast.parse(text).body:
            names = [node.module] if isinstance(node, ast.ImportFrom) else [
                one.name for one in node.names] if isinstance(node, ast.Import) else []
            for name in names:
                # (the tool says itself what is missing)
                with contextlib.suppress(ImportError):
                    importlib.import_module(name)
        del sys.path[0]
        if "jinja2" in sys.modules.keys() - KEPT:
            KEPT.add("jinja2")
            keep_templates(sys.argv[2])
        CODES[file] = compile(text, file, "exec", dont_inherit=True)
        gc.collect()
        gc.freeze()
    return CODES[file]


def keep_templates(folder):
    """Templates are compiled once, by each kind of reader: what a board may write in them is read
    by another kind, which lets it do less."""
    jinja2 = importlib.import_module("jinja2")
    begin = jinja2.Environment.__init__

    def begun(self, *given, **how):
        kind = [str(type(self)), *sorted(f"{key} {how[key]}" for key in how.keys() - {"loader"})]
        name = hashlib.sha256("\n".join(kind).encode()).hexdigest()
        begin(self, *given, **how, bytecode_cache=jinja2.FileSystemBytecodeCache(
            folder, f"{name}-%s"))

    jinja2.Environment.__init__ = begun


def become(asked, files):
    """Makes this process one that was just started for a tool."""
    for number, file in enumerate(files):
        os.dup2(file, number)
    os.closerange(3, max(files) + 1)
    os.umask(asked["umask"])
    os.chdir(asked["folder"])
    os.environ.clear()
    os.environ.update(asked["environment"])
    sys.argv = asked["words"]
    sys.path.insert(0, str(Path(asked["words"][0]).parent))
    encoding, _, errors = asked["environment"].get("PYTHONIOENCODING", "").partition(":")
    form = {"encoding": encoding or sys.stdout.encoding, "closefd": False,
            "errors": errors or ("strict" if encoding else sys.stdout.errors)}
    sys.stdin = sys.__stdin__ = open(0, **form)
    sys.stdout = sys.__stdout__ = open(1, "w", **form)
    sys.stderr = sys.__stderr__ = open(2, "w", 1, **form | {"errors": "backslashreplace"})


def main():
    with socket.socket(fileno=int(sys.argv[1])) as line:
        while True:
            asks, files, *_ = socket.recv_fds(line, 1, 4)
            if not asks:
                return
            with open(files[0], encoding="utf-8") as it:
                asked = json.load(it)
            code = code_of(asked["words"][0])
            child = os.fork()
            if not child:
                line.detach()
                break
            for file in files[1:]:
                os.close(file)
            _, status = os.waitpid(child, 0)
            line.sendall(struct.pack("i", os.waitstatus_to_exitcode(status)))
    become(asked, files[1:])
    tool = types.ModuleType("__main__")
    tool.__file__, tool.__builtins__ = sys.argv[0], builtins
    sys.modules["__main__"] = tool
    exec(code, tool.__dict__)


if __name__ == "__main__":
    main()
