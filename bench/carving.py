"""The carving program beside cat and a plain search, on one core, and the memory it takes: carving.py PROGRAM PLAIN LOG.

The image, of 2 GB and more, is made in a temporary folder out of a fixed seed: blank stretches, text, and fragments of the log in random order,
each of 1 to 16 clusters of 4,096 bytes. What was put in is known: every record of the log that lies in its fragment as a whole. All programs read
the image from the page cache, which an untimed run of each fills, and write to /dev/null. Times are processor times, so that other processes do
not count."""
import bisect
import os
import random
import subprocess
import sys
import tempfile

HEADER, CHUNK, DATA, CLUSTER, TRIES = 4096, 65536, 512, 4096, 3
LARGE, SMALL = 2_200_000_000, 20_000_000
WORDS = b'the of and log record chunk header time site position system event value name type size bytes * ** in a to is'.split()


def records(log):
    """Where the records of a sound log stand, each with its size, in their order."""
    for chunk in range(HEADER, len(log), CHUNK):
        at, free = chunk + DATA, chunk + int.from_bytes(log[chunk + 48:chunk + 52], 'little')
        while at < free:
            size = int.from_bytes(log[at + 4:at + 8], 'little')
            yield at, size
            at += size


def prose(draw):
    return b' '.join(draw.choices(WORDS, k=400_000))


def fragments(log, draw):
    """Fragments of the log in random order, each with the records that it holds as a whole: place in the fragment, and size."""
    placed = list(records(log))
    starts = [at for at, _ in placed]
    while True:
        at = CLUSTER * draw.randrange(len(log) // CLUSTER - 16)
        end = at + CLUSTER * draw.randrange(1, 17)
        held = placed[bisect.bisect_left(starts, at):bisect.bisect_left(starts, end)]
        yield log[at:end], [(s - at, n) for s, n in held if s + n <= end]


def pieces(log, size):
    """The bytes of an image, piece by piece, each with the records that it holds. A fragment of the log never stands beside another: the front
    of a record at the end of one and the rest of another at the front of the next would make a whole record that nobody put in."""
    draw, total = random.Random(7), 0
    text, blank, cut = prose(draw), bytes(1 << 20), fragments(log, draw)
    while total < size:
        clusters = draw.randrange(1, draw.choice((4, 4, 4, 4, 4, 4, 4, 256)))
        start = draw.randrange(0, 4096)
        between = blank[:CLUSTER * clusters] if draw.random() < 0.5 else text[start:start + CLUSTER * clusters]
        fragment, held = next(cut)
        yield between, []
        yield fragment, held
        total += len(between) + len(fragment)


def make_image(path, log, size):
    """Writes an image and answers the lines that are due: the records that were put in."""
    due, at = [], 0
    with open(path, 'wb') as file:
        for piece, held in pieces(log, size):
            file.write(piece)
            due.extend(b'%d %d\n' % (at + s, n) for s, n in held)
            at += len(piece)
    return due


def seconds(command):
    """The processor time of a command."""
    _, status, usage = os.wait4(subprocess.Popen(command, stdout=subprocess.DEVNULL).pid, 0)
    if status != 0:
        sys.exit(f'carving: {command[0]} failed')
    return usage.ru_utime + usage.ru_stime


def compare(program, plain, image, due):
    found = subprocess.run([program, image], stdout=subprocess.PIPE, check=True).stdout.splitlines(keepends=True)
    missing, others = len(set(due) - set(found)), len(set(found) - set(due))
    size = os.path.getsize(image)
    print(f'carving of {size} bytes on one core: {len(found)} records found, {len(due)} put in; {missing} of these not found, {others} others')
    commands = [[program, image], ['cat', image], [plain, image]]
    best = [float('inf')] * 3
    for command in commands:
        seconds(command)
    for _ in range(TRIES):
        best = [min(b, seconds(command)) for b, command in zip(best, commands)]
    rates = [f'{b:.3f} s ({1e-6 * size / b:.0f} MB/s)' for b in best]
    print(f'  evtx_carve {rates[0]}, cat {rates[1]}, ratio {best[0] / best[1]:.2f}; plain search {rates[2]}, ratio {best[0] / best[2]:.2f}')


def memory(program, images):
    print('peak resident size of evtx_carve, largest of three runs')
    for image in images:
        command = ['/usr/bin/time', '-f', '%M', program, image]
        runs = [int(subprocess.run(command, stdout=subprocess.DEVNULL, stderr=subprocess.PIPE, check=True).stderr) for _ in range(3)]
        print(f'  {os.path.getsize(image)} bytes: {max(runs)} KB')


def main(program, plain, log):
    with open('/proc/loadavg') as file:
        print(f'load before: {file.read().split(" ", 3)[:3]}, {os.cpu_count()} cores')
    with open(log, 'rb') as file:
        log = file.read()
    with tempfile.TemporaryDirectory() as folder:
        small, large = os.path.join(folder, 'small'), os.path.join(folder, 'large')
        make_image(small, log, SMALL)
        compare(program, plain, large, make_image(large, log, LARGE))
        memory(program, (small, large))


main(*sys.argv[1:])
