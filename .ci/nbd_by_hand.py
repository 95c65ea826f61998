"""A client of NBD that sends what it is told to, also what the server has not offered, and parts of it."""
import socket, struct

from shared import Failed

READ, WRITE, TRIM, WRITE_ZEROES = 0, 1, 4, 6
FUA, FAST_ZERO = 1 << 0, 1 << 4
EINVAL, ENOTSUP, EIO = 22, 95, 5
NO_ZEROES, EXPORT_NAME = 3, 1
SECONDS_FOR_AN_ANSWER = 180


class ByHand:
    """A connection to an export of a server at a socket."""

    def __init__(self, path, export=b"disk"):
        self.socket = socket.socket(socket.AF_UNIX)
        self.socket.settimeout(SECONDS_FOR_AN_ANSWER)
        self.socket.connect(str(path))
        self.take(18)
        self.socket.sendall(struct.pack(">L8sLL", NO_ZEROES, b"IHAVEOPT", EXPORT_NAME, len(export)) + export)
        self.size, self.offers = struct.unpack(">QH", self.take(10))

    def __enter__(self):
        return self

    def __exit__(self, *fault):
        self.socket.close()

    def take(self, count):
        """So many bytes of the server's."""
        found = b""
        while len(found) < count:
            part = self.socket.recv(count - len(found))
            if not part:
                raise ConnectionError("the server has ended the connection")
            found += part
        return found

    def send(self, command, at, count, flags=0, sent=b""):
        self.socket.sendall(struct.pack(">LHHQQL", 0x25609513, flags, command, at, at, count) + sent)

    def answer(self):
        """The error of the next reply, and the request that it answers, as which its place counts."""
        _, error, at = struct.unpack(">LLQ", self.take(16))
        return error, at

    def asked(self, command, at, count, flags=0, sent=b""):
        """The error with which a request is answered, 0 for none, and what is read."""
        self.send(command, at, count, flags, sent)
        error, _ = self.answer()
        return error, self.take(count) if command == READ and error == 0 else b""

    def check(self, wanted, *asked, **more):
        found = self.asked(*asked, **more)
        if found != wanted:
            raise Failed(f"a request {asked} is answered {found[0]} {found[1][:16]!r}, and not {wanted[0]} {wanted[1][:16]!r}")
