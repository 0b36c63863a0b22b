"""Keeps the other programs of a computer from an office that runs there.

`office serve` answers whoever reaches its port. Linux lets a program have a network of its own:
there `127.0.0.1` is another place, which only the program and what it starts can reach. And it
knows which user's program is at the other end of a connection within the computer.
"""

import ctypes
import fcntl
import os
import socket
import struct
import threading
from contextlib import suppress
from pathlib import Path

CLONE_NEWUSER, CLONE_NEWNET = 0x10000000, 0x40000000
SET_INTERFACE_FLAGS, IS_UP = 0x8914, 0x1
DIE_WITH_PARENT = 1
ESTABLISHED = "01"
TRIES = 3
LIBC = ctypes.CDLL(None, use_errno=True)


def unshared(flags):
    return LIBC.unshare(flags) == 0


def leave_network():
    """Gives this program, and all that it starts from now on, a network of its own.

    It has to have one thread yet. Sockets that it opened before go on where they are. Where the
    system refuses this comes an OSError, and the program can reach nothing any more.
    """
    user, group = os.geteuid(), os.getegid()
    # An administrator needs no users of its own for that.
    if not unshared(CLONE_NEWNET):
        if not unshared(CLONE_NEWUSER | CLONE_NEWNET):
            raise OSError(ctypes.get_errno(), os.strerror(ctypes.get_errno()))
        for name, text in (("setgroups", "deny"), ("uid_map", f"{user} {user} 1"),
                           ("gid_map", f"{group} {group} 1")):
            Path(f"/proc/self/{name}").write_text(text, encoding="ascii")
    with socket.socket() as asked:
        fcntl.ioctl(asked, SET_INTERFACE_FLAGS, struct.pack("16sh14x", b"lo", IS_UP))


def die_with_parent(signal_number):
    """For a program that is about to start: it gets this signal when its parent dies."""
    LIBC.prctl(DIE_WITH_PARENT, signal_number)


class Peers:
    """Whose programs are at the other end of connections within this computer.

    It reads the kernel's tables of connections, opened before the program left their network.
    """

    def __init__(self, users):
        self.users, self.lock, self.tables = set(users), threading.Lock(), []
        for name in ("tcp", "tcp6"):
            # A system without IPv6 has one of them.
            with suppress(FileNotFoundError):
                self.tables.append(open(f"/proc/self/net/{name}", "rb", buffering=0))

    def is_of_us(self, peer, own):
        """Whether one of the users has the other end, `peer`, of a connection to `own`."""
        # A table that changes while it is read may lack a line.
        lines = (self.line_of(ending(peer), ending(own)) for _ in range(TRIES))
        found = next(filter(None, lines), None)
        if not found:
            return False
        state, user = found[3], int(found[7])
        return state == ESTABLISHED and user in self.users

    def line_of(self, local, remote):
        """The fields of the connection whose addresses end so; None where there is none."""
        with self.lock:
            for table in self.tables:
                table.seek(0)
                for line in table.read().decode("ascii").splitlines()[1:]:
                    fields = line.split()
                    if fields[1].endswith(local) and fields[2].endswith(remote):
                        return fields
        return None


def ending(address):
    """How an address of IPv4 and its port end in the kernel's tables, also within one of IPv6."""
    host, port = address
    [number] = struct.unpack("=I", socket.inet_aton(host))
    return f"{number:08X}:{port:04X}"
