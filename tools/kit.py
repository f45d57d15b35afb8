#!/usr/bin/env python3
"""What crates.txt lists, and the words with which the Rattle kit checks or builds a crate over libraries that are proved already: for what `rt` has no command for.

`tools/kit.py words CRATE FOLDER` prints those words, one a line, for the libraries FOLDER/NAME.rlib; `tools/kit.py below CRATE ..` names the libraries of this repository that the crates stand on;
`tools/kit.py root` says where the kit is. `tools/kit.py libraries FOLDER CRATE ..` fills FOLDER with all that the crates stand on: what a passed `rt ci` left, where `./test` noted that nothing has changed since
(target/proved), and else what `rt lib` makes now."""

import hashlib
import os
import pathlib
import re
import shutil
import subprocess
import sys

ROOT = pathlib.Path(__file__).resolve().parent.parent
CRATES = ROOT / "crates"
PROVED = ROOT / "target/proved"


def root():
    """The kit's folder, or None where `rt` is not on the PATH."""
    command = shutil.which("rt")
    return pathlib.Path(command).resolve().parent.parent if command else None


class Listed:
    """What crates.txt lists: of each crate the names that it stands on, and whether it is a static library."""

    def __init__(self):
        self.uses, self.static = {}, set()
        for line in (ROOT / "crates.txt").read_text().splitlines():
            if row := re.match(r"(\w+)( staticlib)?[^:#]*:?\s*([^#]*)", line):
                self.uses[row[1]] = row[3].replace(",", " ").split()
                self.static |= {row[1]} if row[2] else set()

    def below(self, *crates):
        """The libraries of the repository that the crates stand on, whatever the way, lowest first."""
        found = {}
        for crate in crates:
            for name in self.uses[crate]:
                if name in self.uses:
                    found.update(dict.fromkeys([*self.below(name), name]))
        return list(found)

    def words(self, crate, libraries):
        """The words that `rattle check` and `rattle build` take for the crate, in its folder, over libraries/NAME.rlib."""
        kit = root()
        main = "src/main.rt" if (CRATES / crate / "src/main.rt").is_file() else "src/lib.rt"
        words = ["--crate-name", crate, main, "-L", f"dependency={kit}/rlibs", "-L", f"dependency={libraries}"]
        for name in ["std", *self.uses[crate]]:
            words += ["--extern", f"{name}={libraries if name in self.uses else kit / 'rlibs'}/{name}.rlib"]
        words += ["--antt-project", f"{kit}/rattle/logic/antt-project.json", "--logic-built", f"{kit}/logic_built", "--links", f"{crate}=", "--jobs", "1"]
        return [*words, *(["--crate-type", "staticlib"] if crate in self.static else [])]


def linked(folder, to):
    """Copies a folder by links: what rt or rattle writes anew it puts in place of a file, and changes none."""

    def copy(one, other):
        try:
            os.link(one, other)
        except OSError:
            shutil.copy2(one, other)

    shutil.copytree(folder, to, copy_function=copy, dirs_exist_ok=True)


def sums():
    """The sums of all that the proofs read, and of the libraries that lie in the crates' out/."""
    files = [ROOT / "crates.txt"]
    for crate in sorted(CRATES.iterdir()):
        files += [path for part in ("src", "specs", "proofs") for path in sorted((crate / part).rglob("*")) if path.is_file()]
        files += sorted(crate.glob("out/rlib/*.rlib/format"))
    kit = (root() / "KIT-ID").read_text()
    return kit + "".join(f"{hashlib.sha256(path.read_bytes()).hexdigest()}  {path.relative_to(ROOT)}\n" for path in files)


def note():
    """Notes that `rt ci` has just passed on the files as they are."""
    PROVED.parent.mkdir(exist_ok=True)
    PROVED.write_text(sums())


def has_proved():
    """Whether `rt ci` has passed on the files as they are, and its libraries lie there still."""
    return PROVED.is_file() and PROVED.read_text() == sums()


def fill(folder, crates):
    """Puts the libraries below the crates into the folder; whether that went well."""
    listed = Listed()
    below = listed.below(*crates)
    out = lambda name: CRATES / name / "out/rlib"  # noqa: E731
    # `rt` marks what its other commands make, and not what `rt ci` makes
    is_left = has_proved() and all((out(name) / f"{name}.rlib").is_dir() and not (out(name) / "stamp").exists() for name in below)
    tops = [] if is_left else [name for name in below if not any(name in listed.below(other) for other in below)]
    for name in tops:
        done = subprocess.run(["rt", "lib"], cwd=CRATES / name, stdin=subprocess.DEVNULL, stdout=subprocess.PIPE, stderr=subprocess.STDOUT, text=True)
        if done.returncode:
            print(done.stdout[-4000:], f"kit: the library {name} is not proved", sep="\n", file=sys.stderr)
            return False
    for name in below:
        linked(out(name) / f"{name}.rlib", pathlib.Path(folder) / f"{name}.rlib")
    return True


def main(words):
    match words:
        case ["words", crate, folder]:
            print("\n".join(Listed().words(crate, pathlib.Path(folder).resolve())))
        case ["below", *crates]:
            print("\n".join(Listed().below(*crates)))
        case ["root"]:
            print(root() or sys.exit("kit: 'rt' of the Rattle kit is not on the PATH"))
        case ["libraries", folder, *crates]:
            sys.exit(0 if fill(folder, crates) else 1)
        case ["note"]:
            note()
        case _:
            sys.exit(__doc__)


if __name__ == "__main__":
    main(sys.argv[1:])
