#!/usr/bin/env python3
"""Compares the texts of our listing with those of public readers of event logs.

    outside_readers.py LISTING_PROGRAM [LOG...]

Run by hand, with no part in the gate. The readers are evtxexport (Debian's
libevtx-utils) and python-evtx (python3-evtx); those that are installed are
asked. The logs are those given, or the samples. Records are compared field by
field: each element's text and each attribute. A field may differ by one of the
conventions below; they are counted and named. Exit status: 0, 1 if something
else differs, 77 if neither reader is installed.
"""

import collections
import glob
import os
import re
import shutil
import struct
import subprocess
import sys
import xml.etree.ElementTree as ElementTree

# Debian's modules, for a Python that is not Debian's.
sys.path.append("/usr/lib/python3/dist-packages")

HEADER, CHUNK = 4096, 65536
SHOWN = 20
TIME = re.compile(r"(\d{4})-(\d\d)-(\d\d)[T ](\d\d):(\d\d):(\d\d)(?:\.(\d+))?(?: ?Z|\+00:00)?$")
GUID = re.compile(r"\{[0-9A-Fa-f-]{36}\}$")
HEX = re.compile(r"0x[0-9a-fA-F]+$")

# A record of our listing: its offset in the file, its text or the number of its refusal.
Record = collections.namedtuple("Record", "offset text refused")


def our_records(program, path):
    """The records of our listing, and whether all of header and chunks is ok."""
    with open(path, "rb") as log:
        lines = subprocess.run([program], stdin=log, stdout=subprocess.PIPE, check=True).stdout
    records, sound, chunk = [], True, 0
    for line in lines.decode("utf-8").split("\n"):
        words = line.split(" ", 2)
        if words[0] in ("header", "chunk"):
            sound = sound and line.endswith("ok")
            chunk = int(words[1]) if words[0] == "chunk" else chunk
        elif words[0].isdigit():
            offset = HEADER + chunk * CHUNK + int(words[0])
            refused = re.fullmatch(r"refused (\d+)", words[2])
            records.append(Record(offset, words[2], refused and int(refused.group(1))))
    return records, sound


def evtxexport(path):
    """The events that evtxexport gives, in its order, without their offsets."""
    command = ["evtxexport", "-f", "xml", path]
    run = subprocess.run(command, stdout=subprocess.PIPE, check=False)
    # It refuses some logs as a whole; then it has given no event.
    output = run.stdout.decode("utf-8") if run.returncode == 0 else ""
    events = output[output.find("<"):] if "<" in output else ""
    events = re.sub(r"<\?xml[^>]*\?>", "", events)
    return [(None, event) for event in ElementTree.fromstring("<all>" + events + "</all>")]


def python_evtx(path):
    """The events that python-evtx gives as XML, with their offsets in the file."""
    import Evtx.Evtx

    events = []
    with Evtx.Evtx.Evtx(path) as log:
        for record in log.records():
            try:
                events.append((record.offset(), ElementTree.fromstring(record.xml())))
            except Exception:  # of a damaged record it raises errors of many kinds
                continue
    return events


def installed():
    readers = {}
    if shutil.which("evtxexport"):
        readers["evtxexport"] = evtxexport
    try:
        import Evtx.Evtx  # noqa: F401

        readers["python-evtx"] = python_evtx
    except ImportError:
        pass
    return readers


def fields(element, path=""):
    """Each attribute and text of an element and of those in it, by path."""
    path += "/" + element.tag.split("}")[-1]
    found = {path + " (element)": element.tag}
    for name, value in element.attrib.items():
        found[path + "@" + name] = value
    if len(element) == 0:
        found[path] = element.text or ""
    elif (element.text or "").strip():
        found[path + " (text)"] = element.text.strip()
    seen = collections.Counter()
    for child in element:
        seen[child.tag] += 1
        found.update(fields(child, f"{path}/{seen[child.tag]}"))
    return found


def nanoseconds(text):
    """A date and time in nanoseconds, or None."""
    match = TIME.match(text)
    if not match:
        return None
    year, month, day, hour, minute, second = (int(part) for part in match.groups()[:6])
    months = year * 12 + month - 3
    year, month = divmod(months, 12)
    days = 365 * year + year // 4 - year // 100 + year // 400 + (153 * month + 2) // 5 + day
    seconds = ((days * 24 + hour) * 60 + minute) * 60 + second
    return seconds * 10**9 + int((match.group(7) or "0").ljust(9, "0"))


def same_time(ours, theirs):
    both = nanoseconds(ours), nanoseconds(theirs)
    return None not in both and both[0] == both[1]


def close_time(ours, theirs):
    """python-evtx takes a time through a real number whose last bit is 1.9 microseconds."""
    both = nanoseconds(ours), nanoseconds(theirs)
    return None not in both and len(theirs) <= 26 and abs(both[0] - both[1]) <= 3000


def same_number(ours, theirs):
    if not HEX.match(ours):
        return False
    return bool(HEX.match(theirs)) and int(ours, 16) == int(theirs, 16)


def decimal_number(ours, theirs):
    return bool(HEX.match(ours)) and theirs.isdigit() and int(ours, 16) == int(theirs)


def sign_and_low_bits(ours, theirs):
    """libevtx 20181227 writes the bits below the sign bit after the sign."""
    if not re.fullmatch(r"-\d+", ours) or not re.fullmatch(r"-\d+", theirs):
        return False
    return int(ours) + int(theirs) in (-2**7, -2**15, -2**31, -2**63)


def same_real(ours, theirs):
    form = {10: "<f", 18: "<d"}.get(len(ours))
    try:
        bits = int(ours, 16).to_bytes(struct.calcsize(form), "little")
        real = struct.unpack(form, bits)[0]
        return abs(real - float(theirs)) <= 1e-6 * abs(real)
    except (TypeError, ValueError):
        return False


def same_case(ours, theirs):
    known = GUID.match(ours) or ours in ("true", "false") or re.fullmatch("([0-9A-F]{2})+", ours)
    return bool(known) and ours.lower() == theirs.lower()


def same_lines(ours, theirs):
    plain = ours.replace("\r\n", "\n").replace("\r", "\n")
    return plain == theirs.replace("\r\n", "\n").replace("\r", "\n")


def literal_with_zeros(log, ours, theirs):
    """Whether the log has the text as a literal, whose closing zeros both readers drop. A value
    from a substitution drops them here too, and is no such case."""
    kept = ours.rstrip("\ufffd")
    units = kept.encode("utf-16-le") + bytes(2 * (len(ours) - len(kept)))
    stored = b"\x01" + struct.pack("<H", len(units) // 2) + units
    return kept == theirs and (b"\x05" + stored in log or b"\x45" + stored in log)


def same_inside(ours, theirs):
    return ours.strip() == theirs.strip()


# What a field may differ in, by convention: a name, whether two texts differ in no more, and
# the reader that it holds for, if not for each.
CONVENTIONS = [
    ("dates: T, Z and seven digits of a second here", same_time, None),
    ("dates: also up to 3 microseconds off there, for want of digits", close_time, "python-evtx"),
    ("hexadecimal numbers: no leading zeros here", same_number, None),
    ("SizeT: hexadecimal here, decimal there", decimal_number, None),
    ("negative numbers: an error of libevtx 20181227, which drops the sign bit",
     sign_and_low_bits, "evtxexport"),
    ("real numbers: their bits here", same_real, None),
    ("letter case of GUIDs, binary and Boolean values", same_case, None),
    ("line ends: written as character references here", same_lines, None),
    ("space at the ends of a text: kept here", same_inside, None),
]
LEFT_OUT = "attributes of Null values: left out here, empty there"
LITERAL_ZEROS = "a literal's closing zeros: U+FFFD here, dropped there"


class Comparison:
    def __init__(self, reader, log):
        self.reader = reader
        self.log = log
        self.conventions = collections.Counter()
        self.differences = []
        self.records = self.fields = self.equal = 0

    def differ(self, where, ours, theirs):
        self.differences.append(f"{where}: ours {ours!r}, theirs {theirs!r}")

    def field(self, where, name, ours, theirs):
        self.fields += 1
        if ours == theirs:
            self.equal += 1
        elif ours is None and "@" in name and theirs == "":
            self.conventions[LEFT_OUT] += 1
        elif ours is None or theirs is None:
            self.differ(f"{where} {name}", ours, theirs)
        elif literal_with_zeros(self.log, ours, theirs):
            self.conventions[LITERAL_ZEROS] += 1
        else:
            for convention, holds, reader in CONVENTIONS:
                if reader in (None, self.reader) and holds(ours, theirs):
                    self.conventions[convention] += 1
                    return
            self.differ(f"{where} {name}", ours, theirs)

    def record(self, ours, theirs):
        self.records += 1
        mine = fields(ElementTree.fromstring(ours.text))
        other = fields(theirs)
        for name in list(mine) + [name for name in other if name not in mine]:
            self.field(f"record at {ours.offset}", name, mine.get(name), other.get(name))


def pairs(ours, theirs):
    """Our records with their events: by offset, or in order where they give none."""
    if theirs and theirs[0][0] is not None:
        events = dict(theirs)
        return [(record, events.pop(record.offset, None)) for record in ours], len(events)
    events = [event for _, event in theirs]
    matched = events[:len(ours)] + [None] * (len(ours) - len(events))
    return list(zip(ours, matched)), max(0, len(events) - len(ours))


def compare(name, read, path, ours, sound):
    """Compares one log with one reader and prints the result. Answers whether they agree."""
    with open(path, "rb") as log:
        result = Comparison(name, log.read())
    missing = refused = 0
    matched, more = pairs(ours, read(path))
    for record, event in matched:
        if event is None:
            missing += 1
        elif record.refused is not None:
            refused += 1
            if record.refused != 11:
                result.differ(f"record at {record.offset}", record.text, "an event")
        else:
            result.record(record, event)
    if sound and (missing or more):
        result.differ("records", f"{more} fewer", f"{missing} fewer")
    print(f"{os.path.basename(path)}, {name}: {result.records} records, {result.fields} fields, "
          f"{result.equal} the same")
    for convention, count in result.conventions.most_common():
        print(f"  {count} by convention: {convention}")
    if not sound and (missing or more):
        print(f"  of a damaged log, {missing} records are given here only, {more} there only")
    if refused:
        print(f"  {refused} records are refused here, those with 11 for types that are not built")
    for difference in result.differences[:SHOWN]:
        print(f"  DIFFERENCE {difference}")
    if len(result.differences) > SHOWN:
        print(f"  and {len(result.differences) - SHOWN} more differences")
    return not result.differences


def main(arguments):
    if not arguments:
        print("outside_readers.py LISTING_PROGRAM [LOG...]", file=sys.stderr)
        return 2
    readers = installed()
    if not readers:
        print("skipped: neither evtxexport (libevtx-utils) nor python3-evtx is installed")
        return 77
    samples = os.path.join(os.path.dirname(os.path.abspath(__file__)), "..", "samples")
    logs = arguments[1:] or sorted(glob.glob(os.path.join(samples, "*.evtx")))
    print("by form alone, and not counted: indentation, <P/> for <P></P>, an XML declaration")
    agree = True
    for path in logs:
        ours, sound = our_records(os.path.abspath(arguments[0]), path)
        for name, read in readers.items():
            agree = compare(name, read, path, ours, sound) and agree
    return 0 if agree else 1


if __name__ == "__main__":
    sys.exit(main(sys.argv[1:]))
