"""A call of byte-unit and its result. The program gets its input as a file, or in pieces of which each is one read."""

import os
import reprlib
import socket
import subprocess
from contextlib import suppress
from dataclasses import dataclass, fields

# The program asks for this number of bytes in each read; for fewer if texts are long or there can be messages.
CHUNK = 65536
# What it asks for at least, if texts have at most 240 bytes, as with a suffix; the rest of a longer packet would be
# lost.
PACKET = 7_000
# After this time a call has failed.
SECONDS = 600
# Shows values, but for the middle of long ones.
SHORT = reprlib.Repr()
SHORT.maxlist = SHORT.maxstring = SHORT.maxother = 300


@dataclass(repr=False)
class Call:
    """Words and standard input. With `cuts`, places in the input, each piece between them is one read."""

    words: list
    data: bytes = b""
    cuts: list | None = None

    def __repr__(self):
        return f"Call({', '.join(map(SHORT.repr, (self.words, self.data, self.cuts)))})"

    def pieces(self):
        """Returns the parts of the input that the reads take."""
        size = len(self.data)
        places = sorted({0, size, *(at for at in self.cuts or [] if at < size)})
        return [self.data[at : min(end, at + PACKET)] for start, end in zip(places, places[1:])
                for at in range(start, end, PACKET)]


@dataclass
class Result:
    """What a call writes, its exit status, and whether it leaves a standard input that has something unread."""

    written: bytes
    messages: bytes
    status: int
    unread: bool = False

    def differences(self, wanted):
        """Yields each part that differs, texts from a little before the first byte that does."""
        for name in (field.name for field in fields(self)):
            got, right = getattr(self, name), getattr(wanted, name)
            if got != right and isinstance(got, bytes):
                at = len(os.path.commonprefix([got, right]))
                name, got, right = f"{name} at byte {at}", got[max(0, at - 60) :], right[max(0, at - 60) :]
            if got != right:
                yield f"{name}: {SHORT.repr(got)}, not {SHORT.repr(right)}"


def memory(data=b""):
    """Returns a file in memory with these contents."""
    file = open(os.memfd_create("byte-unit"), "w+b", buffering=0)
    file.write(data)
    file.seek(0)
    return file


def run(program, call, joined=False):
    """Returns what the program does in a call; with `joined`, its messages are in its standard output."""
    with memory(call.data) as file, memory() as written, memory() as messages:
        ours, its = (None, file) if call.cuts is None else socket.socketpair(socket.AF_UNIX, socket.SOCK_SEQPACKET)
        child = subprocess.Popen([program, *(word.encode() for word in call.words)], stdin=its, stdout=written,
                                 stderr=written if joined else messages)
        try:
            if ours:
                its.close()
                ours.settimeout(SECONDS)
                with ours, suppress(BrokenPipeError, ConnectionResetError):  # The program may end before its input.
                    for piece in call.pieces():
                        ours.sendall(piece)
            status = child.wait(SECONDS)
        finally:
            child.kill()
        written.seek(0)
        messages.seek(0)
        return Result(written.read(), messages.read(), status, not ours and call.data != b"" and file.tell() == 0)
