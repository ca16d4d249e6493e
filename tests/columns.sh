#!/usr/bin/env bash
# Looks for lines of more than 160 columns in the proved sources, the .rt and .antt files under crates/, but for what rt keeps in a crate's
# out/. A column is a character, not a byte: many signs of the proofs take two or three bytes.
#
#     columns.sh
#
# It prints 'FILE:LINE: N columns' for each such line, and ends in 'columns: N files read, 0 failed' and status 0 exactly if there is
# none. A file that is not UTF-8 fails too.
set -u
cd "$(dirname "$0")/.." || exit 1
exec python3 - <<'PYTHON'
import pathlib
import sys

MOST = 160


def faults(path):
    """What is wrong with the file, a line each."""
    try:
        lines = path.read_bytes().decode("utf-8").split("\n")
    except UnicodeDecodeError:
        return [f"{path}: it is not UTF-8"]
    return [f"{path}:{i}: {len(line)} columns" for i, line in enumerate(lines, 1) if len(line) > MOST]


def main():
    parts = (p for part in ("src", "specs", "proofs") for p in pathlib.Path("crates").glob(f"*/{part}/**/*"))
    paths = sorted(p for p in parts if p.suffix in (".rt", ".antt"))
    found = [fault for path in paths for fault in faults(path)]
    if not paths:
        found.append("there is no file to read")
    for fault in found:
        print(fault)
    print(f"columns: {len(paths)} files read, {len(found)} failed")
    sys.exit(1 if found else 0)


main()
PYTHON
