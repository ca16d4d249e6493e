"""Writes a log of about 20 MB: make_log.py SAMPLES OUT [CHUNKS].

Its chunks are those of samples/windows.evtx and samples/panel.evtx in turn, filled up with further records of the same templates. Numbers and
times in the records are drawn anew from a fixed seed, records are numbered through, and all checksums and numbers in headers are made for
the log, so that a reader that checks them exports every record."""
import random
import struct
import sys
import zlib

HEADER, CHUNK, DATA = 4096, 65536, 512
BIN_XML, FILE_TIME = 0x21, 0x11
# Types whose bytes can be any: integers, and times and identifiers below their highest bytes.
ANY_BYTES = {0x07: 4, 0x08: 4, 0x06: 2, 0x0A: 8, 0x14: 4, 0x15: 8, FILE_TIME: 5}


def number(data, at, width):
    return int.from_bytes(data[at:at + width], 'little')


def instances(chunk, start):
    """The instance that stands behind the stream header at `start`, and those in its values: whether its definition lies in it, and its
    values as (type, offset, size)."""
    at = start + 5
    own = number(chunk, at + 5, 4) == at + 9
    at += 9
    if own:
        at += 24 + number(chunk, at + 20, 4)
    count = number(chunk, at, 4)
    place = at + 4 + 4 * count
    values = []
    for descriptor in range(at + 4, at + 4 + 4 * count, 4):
        size, kind = number(chunk, descriptor, 2), chunk[descriptor + 2]
        values.append((kind, place, size))
        place += size
    yield own, values
    for kind, offset, size in values:
        if kind == BIN_XML and size:
            yield from instances(chunk, offset)


def records(chunk):
    """Offset and size of each record up to the free space."""
    at, free = DATA, number(chunk, 48, 4)
    while at < free:
        size = number(chunk, at + 4, 4)
        yield at, size
        at += size


def filled(chunk):
    """The chunk with records that hold no definition of their own copied behind its last one, as long as they fit. Answers it, the
    records' offsets, and their values."""
    chunk = bytearray(chunk)
    placed, free = list(records(chunk)), number(chunk, 48, 4)
    movable = [(at, size) for at, size in placed if not any(own for own, _ in instances(chunk, at + 24))]
    turn = 0
    while free + movable[turn % len(movable)][1] <= CHUNK:
        at, size = movable[turn % len(movable)]
        chunk[free:free + size] = chunk[at:at + size]
        placed.append((free, size))
        free += size
        turn += 1
    values = [[value for _, part in instances(chunk, at + 24) for value in part] for at, _ in placed]
    struct.pack_into('<I', chunk, 48, free)
    return bytes(chunk), [at for at, _ in placed], values


def renewed(model, first, draw):
    """A filled chunk with records numbered from `first` on and other numbers in them, and the number after its last."""
    chunk, offsets, values = bytearray(model[0]), model[1], model[2]
    for index, at in enumerate(offsets):
        struct.pack_into('<Q', chunk, at + 8, first + index)
        for kind, offset, size in values[index]:
            width = min(ANY_BYTES.get(kind, 0), size)
            chunk[offset:offset + width] = draw.randbytes(width)
    last = first + len(offsets) - 1
    struct.pack_into('<QQQQ', chunk, 8, first, last, first, last)
    struct.pack_into('<I', chunk, 44, offsets[-1])
    struct.pack_into('<I', chunk, 52, zlib.crc32(chunk[DATA:number(chunk, 48, 4)]))
    struct.pack_into('<I', chunk, 124, zlib.crc32(chunk[128:512], zlib.crc32(chunk[:120])))
    return chunk, last + 1


def main(samples, out, chunks=320):
    logs = [open(f'{samples}/{name}.evtx', 'rb').read() for name in ('windows', 'panel')]
    models = [filled(log[at:at + CHUNK]) for at in (HEADER, HEADER + CHUNK) for log in logs]
    header, draw, due, body = bytearray(logs[0][:HEADER]), random.Random(1), 1, []
    for turn in range(int(chunks)):
        chunk, due = renewed(models[turn % len(models)], due, draw)
        body.append(chunk)
    struct.pack_into('<QQQ', header, 8, 0, len(body) - 1, due)
    struct.pack_into('<H', header, 0x2A, len(body))
    struct.pack_into('<I', header, 0x7C, zlib.crc32(header[:120]))
    with open(out, 'wb') as file:
        file.write(header)
        file.writelines(body)
    print(due - 1)


main(*sys.argv[1:])
