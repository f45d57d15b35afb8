"""tools/stack.py PROCESSOR FOLDER: the bytes of stack that each call of the C face takes, deepest way down.

FOLDER has of each part the compiler's report (PART.su: the frame of each function that was left after inlining) and the module as it was then (PART.ll: who calls whom). A frame does not count the
return address that x86-64 pushes at a call; that is added here. What the C library's own memcpy, memmove and memset take is not in it.
"""

import pathlib
import re
import sys

RETURN_ADDRESS = {"x86_64": 8}


def frames(folder):
    """Of each function, its frame in bytes."""
    lines = (line.rsplit("\t", 2) for path in folder.glob("*.su") for line in path.read_text().splitlines())
    found = {}
    for place, size, kind in lines:
        if kind != "static":
            sys.exit(f"stack: the frame of {place} is not of a fixed size")
        found[place.split(":", 1)[1]] = int(size)
    return found


def calls(folder):
    """Of each function, those that it calls."""
    found = {}
    for path in (path for path in folder.glob("*.ll") if not path.name.endswith(".in.ll")):
        for name, body in re.findall(r'^define [^\n]*?@("[^"]+"|[\w.]+)\([^\n]*\{\n(.*?)^\}', path.read_text(), flags=re.M | re.S):
            found[name.strip('"')] = {callee.strip('"') for callee in re.findall(r'\bcall [^\n]*?@("[^"]+"|[\w.]+)\(', body)}
    return found


def main():
    processor, folder = sys.argv[1], pathlib.Path(sys.argv[2])
    frame, callees = frames(folder), calls(folder)
    pushed = RETURN_ADDRESS.get(processor, 0)

    def depth(name, above=()):
        if name in above:
            sys.exit(f"stack: {name} calls itself")
        ours = (callee for callee in callees[name] if callee in frame)
        return frame[name] + pushed + max((depth(callee, (*above, name)) for callee in ours), default=0)

    for name in sorted(name for name in frame if name.startswith("tmv_")):
        print(name, depth(name))


main()
