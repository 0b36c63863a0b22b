"""Asks a proxy for some seconds over connections that are kept.

    attacker.py PORT CERTIFICATE SECONDS JSON

JSON has the head and the body of a request, the addresses, and how many ask at once; in the request
`#` is another number each time, from 1 to `every` where it has that. It prints the number of answers
of each status, and their times. A JSON that is too long for a word comes on standard input, and `-`
in its place.
"""

import json
import socket
import ssl
import sys
import threading
import time

port, certificate, seconds = int(sys.argv[1]), sys.argv[2], float(sys.argv[3])
request_of, sources, each = json.loads(
    sys.stdin.read() if sys.argv[4] == "-" else sys.argv[4])
tls = ssl.create_default_context(cafile=certificate)
end, took, statuses, number, lock = 0, [], {}, iter(range(10**9)), threading.Lock()


def connected(source):
    there = socket.create_connection(("127.0.0.1", port), timeout=600, source_address=(source, 0))
    return tls.wrap_socket(there, server_hostname="office.example")


def answer(it):
    read = it.recv(65536)
    while b"\r\n\r\n" not in read:
        part = it.recv(65536)
        if not part:
            raise OSError("closed")
        read += part
    head, body = read.split(b"\r\n\r\n", 1)
    length = [int(line[15:]) for line in head.lower().split(b"\r\n")
              if line.startswith(b"content-length:")]
    left = length[0] - len(body) if length else 0
    chunked = not length and not body.endswith(b"0\r\n\r\n")
    while left > 0 or chunked:
        part = it.recv(262144)
        if not part:
            raise OSError("closed")
        left -= len(part)
        if chunked:
            body = (body + part)[-16:]
            chunked = not body.endswith(b"0\r\n\r\n")
    return int(head[9:12]), b"connection: close" in head.lower()


def run(source):
    connections = {}
    while time.monotonic() < end:
        for place in range(len(source)):
            if time.monotonic() > end:
                break
            with lock:
                n = next(number)
            try:
                it = connections.get(place) or connected(source[place])
                connections[place] = it
                shown = str(n % request_of.get("every", 10**9) + 1)
                body = request_of.get("body", "").replace("#", shown)
                began = time.monotonic()
                it.sendall((request_of["head"].replace("#", shown)
                            + f"Host: office.example\r\nContent-Length: {len(body)}\r\n\r\n"
                            + body).encode())
                status, closed = answer(it)
                with lock:
                    took.append(time.monotonic() - began)
                    statuses[status] = statuses.get(status, 0) + 1
                if closed:
                    connections.pop(place).close()
            except OSError:
                connections.pop(place, None)


threads = [threading.Thread(target=run, args=(sources[place::each],), daemon=True)
           for place in range(each)]
end = time.monotonic() + seconds
for thread in threads:
    thread.start()
for thread in threads:
    thread.join(timeout=seconds + 20)
with lock:
    print(json.dumps([statuses, took]))
