"""How the desk's commands are run: one line on standard error and a status where something is wrong, and quiet where the reader goes away."""

import os
import pathlib
import re
import sys
from typing import Callable

from .trouble import MISUSED, Trouble


def run(name: str, usage: str, work: Callable) -> int:
    """Runs a command with its arguments; `work` answers the status."""
    arguments = sys.argv[1:]
    if "--help" in arguments or "-h" in arguments:
        print(usage, end="")
        return 0
    if arguments == ["--version"]:
        changes = pathlib.Path(__file__).resolve().parents[2] / "CHANGELOG.md"
        print("trimolaveg", re.search(r"^## (\d+\.\d+\.\d+)", changes.read_text(), flags=re.M)[1])
        return 0
    try:
        status = work(arguments)
        sys.stdout.flush()
        return status
    except Trouble as trouble:
        print(f"{name}: {trouble}", file=sys.stderr)
        return trouble.status
    except BrokenPipeError:
        os.dup2(os.open(os.devnull, os.O_WRONLY), sys.stdout.fileno())
        return 0


def parted(arguments: list, options: set) -> tuple:
    """Options, and what is left. `-` is standard input, and no option."""
    given = {word for word in arguments if word.startswith("-") and word != "-"}
    unknown = sorted(given - options)
    if unknown:
        raise Trouble(MISUSED, f"there is no option {unknown[0]}; --help tells the use")
    return given, [word for word in arguments if word not in given]
