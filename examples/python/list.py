#!/usr/bin/env python3
"""Lists the records of a log through the shared library, in the lines of the listing program.

    list.py LOG

The library is the installed one, as the system's loader finds it, or that whose path the environment has as EVTX_LIBRARY. Exit status: 1 if
something cannot be read, written or loaded, which a line on standard error tells; 2 for wrong arguments. Where the reader of a pipe takes no
more, the program is ended by the signal, as others are.
"""

import contextlib
import ctypes
import os
import signal
import sys

HEADER, CHUNK, RECORDS, ROOM = 4096, 65536, 2322, 65536


class Answer(ctypes.Structure):
    _fields_ = [("number", ctypes.c_uint32), ("length", ctypes.c_uint64)]


class Found(ctypes.Structure):
    _fields_ = [("number", ctypes.c_uint32), ("offset", ctypes.c_uint64)]


class Fields(ctypes.Structure):
    _fields_ = [("number", ctypes.c_uint32), ("record_number", ctypes.c_uint64), ("written_time", ctypes.c_uint64)]


CALLS = {
    "evtx_check_file_header": Answer,
    "evtx_check_chunk": Answer,
    "evtx_free_space_offset": Found,
    "evtx_search_chunk": Answer,
    "evtx_size_in_chunk": Answer,
    "evtx_record_fields": Fields,
    "evtx_record_text": Answer,
}


class Library:
    """The calls, with bytes in. Python's bytes are never null, also where they are empty, as evtx.h wants it."""

    def __init__(self, path):
        self._library = ctypes.CDLL(path)
        for name, result in CALLS.items():
            getattr(self._library, name).restype = result
        self._offsets = (ctypes.c_uint32 * RECORDS)()
        self._text = (ctypes.c_uint8 * ROOM)()

    def _call(self, name, data, *more):
        return getattr(self._library, name)(ctypes.c_char_p(data), ctypes.c_size_t(len(data)), *more)

    def check_file_header(self, header):
        return self._call("evtx_check_file_header", header).number

    def check_chunk(self, chunk):
        return self._call("evtx_check_chunk", chunk).number

    def free_space_offset(self, chunk):
        return self._call("evtx_free_space_offset", chunk).offset

    def search_chunk(self, chunk):
        """The offsets of the whole records; RECORDS entries are always enough."""
        answer = self._call("evtx_search_chunk", chunk, self._offsets, ctypes.c_size_t(RECORDS))
        return self._offsets[:answer.length]

    def record_size(self, chunk, offset):
        return self._call("evtx_size_in_chunk", chunk, ctypes.c_uint64(offset)).length

    def record_number(self, chunk, offset):
        return self._call("evtx_record_fields", chunk, ctypes.c_uint64(offset)).record_number

    def record_text(self, chunk, offset):
        """The number of the answer, and the text's bytes; none in a refusal."""
        answer = self._call("evtx_record_text", chunk, ctypes.c_uint64(offset), self._text, ctypes.c_size_t(ROOM))
        return answer.number, bytes(self._text[:answer.length])


@contextlib.contextmanager
def told(name):
    """Ends the program with one line where the system refuses something of that name."""
    try:
        yield
    except OSError as error:
        sys.exit(f"list.py: {name}: {error.strerror}")


def load(path):
    # The loader's reason begins with the path. A library without one of the calls is an AttributeError.
    try:
        return Library(path)
    except (OSError, AttributeError) as error:
        sys.exit(f"list.py: {error}")


def read(log, count):
    with told(log.name):
        return log.read(count)


def write(line):
    # Not by way of sys.stdout, which is None where standard output is closed and writes once more when Python ends.
    with told("standard output"):
        while line:
            line = line[os.write(1, line):]


def verdict(number):
    return b"ok" if number == 0 else b"refused %d" % number


def chunk_lines(library, index, chunk):
    number = library.check_chunk(chunk)
    # A sound chunk says where its free space begins; a refused one is listed whole.
    limit = library.free_space_offset(chunk) if number == 0 else CHUNK
    yield b"chunk %d " % index + verdict(number)
    for offset in library.search_chunk(chunk):
        if offset + library.record_size(chunk, offset) <= limit:
            refused, text = library.record_text(chunk, offset)
            yield b"%d %d " % (offset, library.record_number(chunk, offset)) + (verdict(refused) if refused else text)


def lines(library, log):
    header = read(log, HEADER)
    yield b"header " + verdict(library.check_file_header(header))
    if len(header) < HEADER:
        return
    index, chunk = 0, read(log, CHUNK)
    while len(chunk) == CHUNK:
        yield from chunk_lines(library, index, chunk)
        index, chunk = index + 1, read(log, CHUNK)
    if chunk:
        yield b"rest %d" % len(chunk)


def main(arguments):
    if len(arguments) != 1:
        print("usage: list.py LOG", file=sys.stderr)
        return 2
    signal.signal(signal.SIGPIPE, signal.SIG_DFL)
    library = load(os.environ.get("EVTX_LIBRARY") or "libevtx_c.so.0")
    with told(arguments[0]):
        log = open(arguments[0], "rb")
    with log:
        for line in lines(library, log):
            write(line + b"\n")
    return 0


if __name__ == "__main__":
    sys.exit(main(sys.argv[1:]))
