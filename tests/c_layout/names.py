"""Writes the names that a C header declares, in the lines of `layout --covered`: structs, fields, calls, numbers.

    gcc -E -dD header | names.py HEADER

Only what stands in HEADER itself counts, after the preprocessor. A number is an enumerator, or a macro that is left at the end; the macro
that guards the header against a second reading has no value and is none. A declaration of a form that is not known here fails, and so
does a call that does not say that its pointers are not null."""
import re
import sys

STRUCT = re.compile(r"\s*typedef\s+struct\s*\{(?P<fields>[^{}]*)\}\s*(?P<struct>\w+)\s*;\s*")
ENUM = re.compile(r"\s*enum\s+\w+\s*\{(?P<numbers>[^{}]*)\}\s*;\s*")
INLINE = re.compile(r"\s*static\s+inline\s+[\w\s*]+?(?P<call>\w+)\s*\([^()]*\)\s*\{(?:[^{}]|\{[^{}]*\})*\}\s*")
CALL = re.compile(r"\s*[\w\s*]+?(?P<call>\w+)\s*\([^()]*\)\s*__attribute__\(\(nonnull\)\)\s*;\s*")
FIELD = re.compile(r"\s*\w+\s+(\w+)\s*")
ENUMERATOR = re.compile(r"\s*(\w+)\s*(?:=\s*\w+\s*)?")


def own(lines, header):
    """The header's text without its macros, and their names."""
    mine, text, macros = False, "", {}
    for line in lines:
        marker = re.match(r"# \d+ \"(.*?)\"", line)
        if marker:
            mine = marker[1] == header
        elif mine and line.startswith("#define "):
            word = line.split(maxsplit=2)[1:]
            macros[word[0]] = len(word) == 2
        elif mine and line.startswith("#undef "):
            macros.pop(line.split()[1], None)
        elif mine:
            text += line
    return text, [name for name, valued in macros.items() if valued]


def parts(text, form, what):
    """The names in a list, each of the form."""
    for part in text:
        named = form.fullmatch(part)
        if not named:
            sys.exit(f"no {what}: {part.strip()}")
        yield named[1]


def names(declaration):
    """The lines for one declaration."""
    found = declaration.groupdict()
    if "call" in found:
        return ["call " + found["call"]]
    if "numbers" in found:
        return ["number " + name for name in parts(found["numbers"].split(","), ENUMERATOR, "number")]
    fields = parts(found["fields"].split(";")[:-1], FIELD, "field")
    return ["struct " + found["struct"]] + [f"field {found['struct']}.{name}" for name in fields]


def main(header):
    text, macros = own(sys.stdin, header)
    for name in macros:
        print("number " + name)
    at = 0
    while text[at:].strip():
        found = next(filter(None, (form.match(text, at) for form in (STRUCT, ENUM, INLINE, CALL))), None)
        if not found:
            sys.exit("no struct, no enum and no call with its attribute: " + text[at:].strip()[:100])
        print("\n".join(names(found)))
        at = found.end()


main(sys.argv[1])
