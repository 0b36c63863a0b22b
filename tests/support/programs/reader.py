"""Reads the tally of a constituency from the proxy, over and over, by clients at their own
addresses.

    reader.py PORT CERTIFICATE FIRST CLIENTS ASKS

Each client asks ASKS times or, if that is 0, until standard input ends. It prints how many asked,
how many failed, the seconds, and the first failure.
"""

import socket
import ssl
import sys
import threading
import time

port, certificate, first, clients, asks = int(sys.argv[1]), sys.argv[2], *map(int, sys.argv[3:])
tls = ssl.create_default_context(cafile=certificate)
request = b"GET /con/c1/tally HTTP/1.1\r\nHost: office.example\r\n\r\n"
failed, asked, stop = [], [], threading.Event()


def until_told():
    sys.stdin.read()
    stop.set()


def read(client):
    # So often, or, if that is 0, until this is told to end.
    count, goes_on = 0, lambda: count < asks or not asks and not stop.is_set()
    while goes_on():
        there = socket.create_connection(("127.0.0.1", port), timeout=600,
                                         source_address=(f"127.0.5.{first + client + 1}", 0))
        with tls.wrap_socket(there, server_hostname="office.example") as it:
            # The proxy ends a connection after a thousand.
            for _ in range(900):
                if not goes_on():
                    break
                count += 1
                it.sendall(request)
                answer = it.recv(65536)
                while b"\r\n\r\n" not in answer or not answer.endswith(b"\n"):
                    part = it.recv(65536)
                    if not part:
                        break
                    answer += part
                if not answer.startswith(b"HTTP/1.1 200 ") or b"TALLY c1 Twin Town\n" not in answer:
                    failed.append(answer)
    asked.append(count)


def tries_to_read(client):
    try:
        read(client)
    except Exception as error:
        failed.append(repr(error))


threads = [threading.Thread(target=tries_to_read, args=(client,)) for client in range(clients)]
threading.Thread(target=until_told, daemon=True).start()
began = time.monotonic()
for thread in threads:
    thread.start()
for thread in threads:
    thread.join()
print(sum(asked), len(failed), time.monotonic() - began, failed[:1])
