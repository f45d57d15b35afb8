"""Holds ./show and ./draw to the stored logs: `check.py`; `check.py --write` renews tests/desk/demo.txt and docs/pictures. It needs nothing that is built."""

import pathlib
import sys
import tempfile

sys.dont_write_bytecode = True
HERE = pathlib.Path(__file__).resolve().parent
sys.path[:0] = [str(HERE), str(HERE.parent), str(HERE.parent.parent / "tools")]

import drawn  # noqa: E402
import partings  # noqa: E402
import reasons  # noqa: E402
import refused  # noqa: E402
import shown  # noqa: E402

PARTS = [
    *(shown.all_stored, shown.commands, shown.many_events, shown.demo),
    *(reasons.vectors, reasons.examples),
    *(refused.damaged, refused.at_random, refused.other_recordings, refused.statuses),
    *(partings.demo, partings.suite),
    *(drawn.short_calls, drawn.parted, drawn.one_line, drawn.long_call, drawn.overwriting, drawn.pictures),
]


def main():
    if sys.argv[1:] == ["--write"]:
        shown.write()
        drawn.write()
    with tempfile.TemporaryDirectory() as folder:
        wrong = [line for part in PARTS for line in part(pathlib.Path(folder))]
    for line in wrong[:20]:
        print(f"desk: {line}")
    print(f"desk: logs in words and as pictures, {len(wrong)} things wrong")
    sys.exit(1 if wrong else 0)


main()
