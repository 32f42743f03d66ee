"""The other end of a live link, for `check`: over the local host it writes the octets of a case at once, ends its writing, and keeps
what the program writes, to the end of it."""
import random
import socket
import threading
import time

HOST = "127.0.0.1"
# below those that systems hand out by themselves, so that no link meets itself
PORTS = range(20000, 30000)
PATIENCE = 10
TRIES = 500


def bound_socket():
    """A socket at a free port."""
    for port in random.sample(PORTS, 100):
        bound = socket.socket()
        try:
            bound.bind((HOST, port))
            return bound
        except OSError:
            bound.close()
    raise OSError("no port is free")


class Peer(threading.Thread):
    """The other end of a program that is run with these words: for a vehicle it listens, for a point it connects, and without
    octets it is nowhere."""

    def __init__(self, words, octets):
        super().__init__(daemon=True)
        self.octets, self.heard, self.socket = octets, b"", bound_socket()
        self.port = self.socket.getsockname()[1]
        if octets is not None and words[1] == "vehicle":
            self.socket.listen()
        else:
            self.socket.close()
            self.socket = None
        if octets is not None:
            self.start()

    def link(self):
        if self.socket:
            self.socket.settimeout(PATIENCE)
            return self.socket.accept()[0]
        for _ in range(TRIES):
            try:
                return socket.create_connection((HOST, self.port), PATIENCE)
            except ConnectionRefusedError:
                time.sleep(0.02)
        raise OSError("nobody listens")

    def run(self):
        try:
            with self.link() as link:
                link.sendall(self.octets)
                link.shutdown(socket.SHUT_WR)
                while more := link.recv(4096):
                    self.heard += more
        except OSError as reason:
            self.heard += str(reason).encode()

    def said(self):
        """What the program wrote to it."""
        if self.octets is not None:
            self.join(PATIENCE + 1)
        return self.heard
