"""Wrong programs: how a file says one, and what it changes in a crate.

A wrong program is a file LABEL.edit, in crates/CRATE/must-fail, which `rt ci` tries, or in tests/wrong/CRATE, which tests/wrong/try tries:

    # what the wrong program does
    call: module::call         the public call that it is a wrong body of, where it is one
    file: src/module.rt        the file that the lines below change
    in: Type::function         the function whose body they change; without this line, anything in the file
    old: a line, or a part of one, that stands there exactly once
    new: what stands there instead

with as many lines of each sort as it needs. `rt` reads `file:`, `old:` and `new:` the same way and passes over the others.
"""

import collections
import pathlib
import re

ROOT = pathlib.Path(__file__).resolve().parent.parent.parent
HERE = ROOT / "tests/wrong"
CRATES = ROOT / "crates"

Edit = collections.namedtuple("Edit", "file within old new")
Program = collections.namedtuple("Program", "crate label says call edits path")
Function = collections.namedtuple("Function", "name start body end")
Change = collections.namedtuple("Change", "file start end new function")


class Bad(Exception):
    """A wrong program that cannot be tried, and why."""


def read(path):
    """The wrong program of a file."""
    crate = path.parent.name if path.parent.name != "must-fail" else path.parent.parent.name
    first, *lines = path.read_text().splitlines()
    if not first.startswith("# "):
        raise Bad("its first line does not say what it does")
    call = file = within = old = None
    edits = []
    for line in lines:
        word, _, rest = line.partition(":")
        rest = rest.removeprefix(" ")
        if word == "call":
            call = rest
        elif word == "file":
            file, within = rest, None
        elif word == "in":
            within = rest
        elif word == "old":
            old = rest
        elif word == "new" and file and old:
            edits.append(Edit(file, within, old, rest))
            old = None
        elif line:
            raise Bad(f"'{line}' is not understood")
    if not edits or old:
        raise Bad("it has no pair of 'old:' and 'new:'")
    return Program(crate, path.stem, first[2:], call, edits, path)


def functions(text):
    """The functions of a source file, in order; `start` is where a function's head begins, `body` to `end` its body."""
    found, place, kind, head = [], 0, "", None
    for line in text.splitlines(keepends=True):
        bare = line.rstrip()
        if begun := re.match(r"impl (\w+)", line):
            kind = begun[1] + "::"
        elif line.startswith("}"):
            kind = "" if not head else kind
        if begun := re.match(r'( *)(?:pub )?(?:extern "C" )?fn (\w+)', line):
            head = (begun[1], (kind if begun[1] else "") + begun[2], place, None)
        if head:
            indent, name, start, body = head
            if body is None and bare.endswith("{") and re.match(indent + r"\S", line):
                head = (indent, name, start, place + len(line))
            elif body is not None and bare == indent + "}":
                found.append(Function(name, start, body, place))
                head = None
        place += len(line)
    return found


def changes(program):
    """What the program changes: in which file, from where to where, and in which function's body, where it is in one."""
    for edit in program.edits:
        path = CRATES / program.crate / edit.file
        if not path.is_file():
            raise Bad(f"the crate has no {edit.file}")
        text = path.read_text()
        known = functions(text) if path.suffix == ".rt" else []
        low, high = 0, len(text)
        if edit.within:
            there = [f for f in known if f.name == edit.within]
            if len(there) != 1:
                raise Bad(f"{edit.file} has {len(there)} functions named {edit.within}")
            low, high = there[0].body, there[0].end
        times = text.count(edit.old, low, high)
        if times != 1:
            raise Bad(f"'{edit.old}' stands {times} times in {edit.within or edit.file}")
        start = text.index(edit.old, low, high)
        body = next((f.name for f in known if f.body <= start < f.end), None)
        yield Change(edit.file, start, start + len(edit.old), edit.new, body)


def all_programs(folder=None):
    """The paths of all wrong programs that tests/wrong/try tries."""
    return sorted(HERE.glob(f"{folder or '*'}/*.edit"))
