"""Answers at once in the place of an office. It prints its port."""

import socket

listener = socket.create_server(("127.0.0.1", 0), backlog=512)
print(listener.getsockname()[1], flush=True)
while True:
    it, _ = listener.accept()
    with it:
        read = it.recv(65536)
        while b"\r\n\r\n" not in read or read.startswith(b"POST") and not read.endswith(b"}"):
            part = it.recv(65536)
            if not part:
                break
            read += part
        body = b'{"ok":"lodged","rev":1}' if read.startswith(b"POST") else b"TALLY c1 Twin Town\n"
        it.sendall(b"HTTP/1.1 200 OK\r\nContent-Type: text/plain\r\nContent-Length: %d\r\n"
                   b"Connection: close\r\n\r\n%s" % (len(body), body))
