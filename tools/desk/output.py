"""Writes a picture, and over nothing but a picture of ours."""

import os
import pathlib

from .svg import MADE_BY
from .trouble import MISUSED, UNREADABLE, Trouble


def judge(out: str, inputs: list, force: bool):
    """Whether a picture may be written there."""
    path = pathlib.Path(out)
    if out == "-":
        raise Trouble(MISUSED, "the picture needs a file name; - is no file")
    if path.is_dir():
        raise Trouble(UNREADABLE, f"{out}: is a folder")
    if not path.exists():
        return
    if any(name != "-" and path.samefile(file) for name in inputs for file in [pathlib.Path(name), *pathlib.Path(name).glob("*")] if file.exists()):
        raise Trouble(MISUSED, f"{out}: is one of the files that would be drawn")
    if not force and not ours(path):
        raise Trouble(UNREADABLE, f"{out}: is there already and is no picture of ./draw; --force writes over it")


def ours(path: pathlib.Path) -> bool:
    try:
        with path.open("rb") as file:
            return MADE_BY.encode() in file.read(1000)
    except OSError as error:
        raise Trouble(UNREADABLE, f"{path}: {error.strerror}") from error


def write(out: str, text: str):
    """Writes the whole file or nothing of it."""
    path = pathlib.Path(out)
    part = path.with_name(f".{path.name}.{os.getpid()}")
    try:
        part.write_text(text, encoding="utf-8")
        part.replace(path)
    except OSError as error:
        part.unlink(missing_ok=True)
        raise Trouble(UNREADABLE, f"{out}: {error.strerror}") from error
