#!/usr/bin/env bash
# Looks at why the prover refused each must-fail edit. An edit shows something only if a fact fails: a goal that does not hold, a bound, an
# invariant, a theorem. Where the proof just does not fit the edited code any more (a goal that is gone, or is another one), it would refuse a
# right program as well.
#
#     edits.sh                        every edit of the repository, by target/ci.log, in which .ci/run keeps what 'rt ci' says
#     edits.sh NAME..                 those of some crates
#     edits.sh --log FILE ..          by another file, as one that 'rt must-fail NAME.. >FILE' wrote
#     edits.sh --each ..              also prints what is said of each edit
#
# An edit passes exactly if its file begins with a comment that says its fault; it was tried, after its file was last written, and
# refused; and the first error that rt tells of is a fact that fails. rt tells of the first error that is no name which the edit took away, and
# of that the first line, cut short. A first error that is none of the kinds below fails too, and so does a refusal by a limit of the prover.
# Ends in 'edits: N read, 0 failed' and status 0 exactly if all passed.
set -u
cd "$(dirname "$0")/.." || exit 1
exec python3 - "$@" <<'PYTHON'
import glob
import os
import re
import sys

# What rt says of an edit: 'rt: must-fail CRATE/NAME.edit: WORD, as it must be: FILE:LINE:COLUMN: error: `NAME`: ..'
TOLD = re.compile(r"^rt: must-fail ([^/ ]+/[^:]+\.edit): (.*)$")
REFUSED = re.compile(r"refused, as it must be(?: \((.*?)\))?(?:: (.*))?$")
ERROR = re.compile(r"(?:note: )?(?:\./)?(\S+:\d+:\d+): (?:error: )?(?:`[^`]*`: )?(.*)$")

# What a message says, after the name of what it is about: a fact that fails, or a law about something else than the goal ..
FACTS = [
    r"`search`: no proof of ",
    r"`cc`: the equations do not join ",
    r"`omega`: the (goal|part `[^`]*` of the goal) does not follow ",
    r"give a proof of that as the last argument, `rw L t` ",
    r"`rw`: no occurrence of the path's (left|right) endpoint in the (goal|hypothesis's type)\b",
    r"it is not proved that ",
    r"`[^`]*`\s*≟ `[^`]*`\s*does not hold \(",
    r"(as printed|computed as far as they go|compared part by part), the two (types|sides) (first differ|differ only) ",
    r"as printed, the two types are identical apart from the names of bound variables",
    r"computed as a goal is, one side reads ",
    # an equation that does not hold, of which rt has cut all behind the first term
    r"^`[^`]*$",
]

# .. and what else it may say, to name it: all of it fails, and so does what is not named.
SHAPES = [
    ("a goal that the code does not have", r"\.(Goals|Given)` has no "),
    ("another goal, or another step of the code", r"(expected|this has) type `(\S*\.)?goal\.|where one has `\S*\bLts\.(At|After)-"),
    ("a field that is not there", r"^record `[^`]*`\s+has no field"),
    ("an unknown name", r"^(`[^`]*`: )?(`[^`]*` is not in scope|module `[^`]*` has no )"),
    ("another number of arguments", r"explicit arguments? (more|fewer) than|^this pattern needs a function|^this is applied to an argument"),
]


def relation(text):
    """What a type says of its terms: the loosest sign between them, or else its first word; None if that is a term or data."""
    flat, depth = "", 0
    for c in text:
        depth += (c in "({") - (c in ")}")
        flat += c if depth == 0 else ""
    words = flat.split()
    for signs in ("→", "↔", "⊎", "×", "≡≤<"):
        for word in words:
            if word in signs:
                # Less and at most differ as their terms do.
                return "≤" if word == "<" else word
    first = words[0].split(".")[-1].strip("_◌") if words else ")"
    if first in ("c", ")", "}", "Type", "ℕ", "Bool", "List", "Option", "Outcome"):
        return None
    return "≡" if first == "Path" else first


def same_relation(said):
    """Whether a type is found that says the same as the expected one, of other terms."""
    expected = re.findall(r"expected type `([^`]*)`|the expected one begins `([^`]*)`|`([^`]*)`\s+\(expected\)", said)
    found = re.findall(r"this has type `([^`]*)(?:`|$)|the found one begins `([^`]*)`|`([^`]*)`\s+\(found\)", said)
    both = {relation("".join(one)) for one in expected} & {relation("".join(one)) for one in found}
    # rt may cut the message before the type that is found, or within it.
    cut = re.search(r"expected type `([^`]*)`, but this has typ(?:e(?: `([^`]*))?)?$", said)
    return bool(both - {None}) or bool(cut and relation(cut[1]) and cut[1].startswith(cut[2] or ""))


def misfit(said):
    """Why the message is no fact that fails, or None."""
    shape = next((name for name, shape in SHAPES if re.search(shape, said)), None)
    if shape:
        return shape
    if any(re.search(fact, said) for fact in FACTS) or same_relation(said):
        return None
    return "its first error is of no known kind"


def fault_of(edit):
    """Why the edit's file is not as it should be, or None."""
    with open(edit, encoding="utf-8") as lines:
        first = lines.readline()
    return None if re.match(r"#.*\w", first) else "its first line is no comment that says its fault"


def judge(edit, told, when):
    """What is wrong with the edit, or None."""
    wrong = fault_of(edit)
    if wrong:
        return wrong
    if told is None:
        return "nothing is said of it"
    if os.path.getmtime(edit) > when:
        return "it was written after it was last tried"
    said = REFUSED.match(told)
    if not said:
        return "it was not refused"
    if said[1]:
        return "no fact fails: a name that is gone" if "proof file names" in said[1] else "no fact fails: a limit of the prover"
    first = ERROR.match(said[2] or "")
    if not first:
        return "no first error is told"
    shape = misfit(first[2])
    return f"no fact fails: {shape}" if shape else None


def told_in(log):
    """What is said of each edit, by its crate and name, and when it was said."""
    try:
        with open(log, encoding="utf-8", errors="replace") as lines:
            found = [TOLD.match(line.rstrip("\n")) for line in lines]
        return {one[1]: one[2] for one in found if one}, os.path.getmtime(log)
    except OSError:
        sys.exit(f"edits: {log} cannot be read: it is what 'rt ci' or 'rt must-fail' says")


def main(words):
    log, each, names = "target/ci.log", False, []
    while words:
        word = words.pop(0)
        if word == "--log" and words:
            log = words.pop(0)
        elif word == "--each":
            each = True
        elif os.path.isdir(f"crates/{word}"):
            names.append(word)
        else:
            sys.exit(f"edits: {word} is no crate")
    told, when = told_in(log)
    read = failed = 0
    for edit in sorted(glob.glob("crates/*/must-fail/*.edit")):
        _, crate, _, name = edit.split("/")
        if names and crate not in names:
            continue
        read += 1
        said = told.get(f"{crate}/{name}")
        wrong = judge(edit, said, when)
        if wrong:
            failed += 1
            print(f"FAILED {crate}/{name}: {wrong}")
        elif each:
            print(f"{crate}/{name}")
        if said and (wrong or each):
            print("    " + said)
    if not read:
        failed += 1
        print("FAILED: there is no edit to read")
    print(f"edits: {read} read, {failed} failed")
    sys.exit(1 if failed else 0)


main(sys.argv[1:])
PYTHON
