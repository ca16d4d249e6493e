"""The listing beside evtxexport, on one core, and the memory it takes: listing.py PROGRAM LOG RECORDS.

Both read the log from the page cache, which an untimed run of each fills, and write to /dev/null. Times are processor times, so that other
processes do not count."""
import os
import re
import subprocess
import sys

HEADER, TRIES, ABOUT_1_GB = 4096, 5, 51


def seconds(command, log):
    """The processor time of a command with the log on its standard input."""
    with open(log, 'rb') as file:
        _, status, usage = os.wait4(subprocess.Popen(command, stdin=file, stdout=subprocess.DEVNULL).pid, 0)
    if status != 0:
        sys.exit(f'listing: {command[0]} failed')
    return usage.ru_utime + usage.ru_stime


def lines(command, log, pattern):
    """How many lines of the command's output begin as the pattern says."""
    with open(log, 'rb') as file:
        shown = subprocess.run(command, stdin=file, stdout=subprocess.PIPE, check=True).stdout
    return len(re.findall(pattern, shown, re.MULTILINE))


def compare(program, log, records):
    ours, theirs = [program], ['evtxexport', '-f', 'xml', log]
    counts = lines(ours, log, rb'^\d+ \d+ <'), lines(theirs, log, rb'^</(?:Event|Reading)>$')
    if counts != (records, records):
        sys.exit(f'listing: {counts[0]} records listed and {counts[1]} exported of {records}')
    first = second = float('inf')
    for _ in range(TRIES):
        first, second = min(first, seconds(ours, log)), min(second, seconds(theirs, log))
    size = os.path.getsize(log)
    print(f'listing of {size} bytes, {records} records, on one core; both programs give every record')
    print(f'  evtx_list {first:.3f} s ({1e-6 * size / first:.0f} MB/s), evtxexport -f xml {second:.3f} s, ratio {second / first:.1f}')


def peak(program, log, times):
    """The peak resident size, in KB, for the log's header and its chunks so many times, through a pipe; and how many bytes these are.
    A process started by time(1) begins small, which one started from here would not."""
    with open(log, 'rb') as file:
        header, chunks = file.read(HEADER), file.read()
    command = ['/usr/bin/time', '-f', '%M', program]
    with subprocess.Popen(command, stdin=subprocess.PIPE, stdout=subprocess.DEVNULL, stderr=subprocess.PIPE) as run:
        run.stdin.write(header)
        for _ in range(times):
            run.stdin.write(chunks)
        run.stdin.close()
        size = int(run.stderr.read())
    return size, HEADER + times * len(chunks)


def memory(program, log):
    print('peak resident size of evtx_list, input through a pipe, largest of three runs')
    for times in (1, ABOUT_1_GB):
        runs = [peak(program, log, times) for _ in range(3)]
        print(f'  {runs[0][1]} bytes: {max(size for size, _ in runs)} KB')


def main(program, log, records):
    with open('/proc/loadavg') as file:
        print(f'load before: {file.read().split(" ", 3)[:3]}, {os.cpu_count()} cores')
    compare(program, log, int(records))
    memory(program, log)


main(*sys.argv[1:])
