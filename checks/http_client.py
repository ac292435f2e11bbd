"""Requests to a desk that serves, and its responses, octet for octet."""

import random
import socket


def free_port():
    with socket.socket() as bound:
        bound.bind(("127.0.0.1", 0))
        return bound.getsockname()[1]


def lasting_port():
    """A free port below those that connections get by themselves, so that none takes it while the desk is started again."""
    while True:
        port = random.randrange(20_000, 30_000)
        with socket.socket() as bound:
            try:
                bound.bind(("127.0.0.1", port))
            except OSError:
                continue
            return port


def asked(port, octets, shut=False):
    """The response to these octets."""
    with socket.create_connection(("127.0.0.1", port), timeout=60) as connection:
        connection.sendall(octets)
        if shut:
            connection.shutdown(socket.SHUT_WR)
        return received(connection)


def received(connection):
    parts = []
    while part := connection.recv(65_536):
        parts.append(part)
    return b"".join(parts)


def post(line):
    octets = line.encode()
    return f"POST /v1/messages HTTP/1.1\r\nhost: a\r\ncontent-length: {len(octets)}\r\n\r\n".encode() + octets


def get(target):
    return f"GET {target} HTTP/1.1\r\nhost: a\r\n\r\n".encode()


def body(response):
    return response.partition(b"\r\n\r\n")[2].decode()


def posted(port, line):
    """The body of the response to the line, of a connection of its own."""
    return body(asked(port, post(line)))


def answer_of(port, line):
    """The answer to the line, if it came whole."""
    try:
        response = asked(port, post(line))
    except OSError:
        return None
    head, _, _ = response.partition(b"\r\n\r\n")
    text = body(response)
    whole = f"content-length: {len(text.encode())}\r\n".encode() in head
    return text if text and whole else None
