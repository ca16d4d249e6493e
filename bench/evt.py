"""The listing of an EVT log beside evtexport, on one core: evt.py PROGRAM LOG RECORDS.

Both read the log from the page cache, which an untimed run of each fills, and write to /dev/null. Times are processor times."""
import os
import subprocess
import sys

TRIES, LEAST = 5, 20


def seconds(command):
    _, status, usage = os.wait4(subprocess.Popen(command, stdout=subprocess.DEVNULL).pid, 0)
    if status != 0:
        sys.exit(f'evt: {command[0]} failed')
    return usage.ru_utime + usage.ru_stime


def shown(command):
    return subprocess.run(command, stdout=subprocess.PIPE, check=True).stdout


def main():
    program, log, records = sys.argv[1], sys.argv[2], int(sys.argv[3])
    ours, theirs = [program, log], ['evtexport', log]
    counts = shown(ours).count(b'\n'), shown(theirs).count(b'Event number')
    if counts != (records, records):
        sys.exit(f'evt: {counts[0]} records listed and {counts[1]} exported of {records}')
    first = min(seconds(ours) for _ in range(TRIES))
    second = min(seconds(theirs) for _ in range(TRIES))
    size = os.path.getsize(log)
    print(f'listing of an EVT log of {size} bytes, {records} records, on one core; both programs give every record')
    print(f'  evt_list {first:.3f} s ({1e-6 * size / first:.0f} MB/s), evtexport {second:.3f} s, ratio {second / first:.1f}')
    if second < LEAST * first:
        sys.exit(f'evt: less than {LEAST} times as fast')


main()
