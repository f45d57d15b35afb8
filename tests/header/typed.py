"""Holds include/trimolaveg_typed.h to include/trimolaveg.h: each call on a state has its typed one, each answer its enumerator; and no parameter of any header is a keyword of small compilers."""

import pathlib
import re
import sys

FOLDER = pathlib.Path("include")
# Calls that answer a value itself, and so need no type.
PLAIN = r"tmv_(version|narrow|square_roots?|is_finite|is_finite32|magnitude|\w+_words|scan_\w+_len|panel_envelope_len|fine_(frame|window|correlation|transform)_len)"
# Answers that say whether there is a value: in C a bool beside it.
EITHER = r"TMV_(NO|YES|DONE|ANSWERED|REGION_\w+|RING_\w+|PEAK_\w+|POSITION_\w+)"
NOT_ANSWERS = r"TMV_(\w+_WORDS|VERSION_\w+)"


def bare(name):
    return re.sub(r"/\*.*?\*/", " ", (FOLDER / name).read_text(), flags=re.S)


def main():
    raw, typed = bare("trimolaveg.h"), bare("trimolaveg_typed.h")
    wrong = []

    calls = [name for name in re.findall(r"\b(tmv_\w+)\(", raw) if not re.fullmatch(PLAIN, name)]
    wrong += [f"{name} has no typed call" for name in calls if not re.search(rf"\b{name}\(", typed)]

    answers = [name for name in re.findall(r"^#define (TMV_\w+) \d+\s*$", raw, flags=re.M) if not re.fullmatch(f"{EITHER}|{NOT_ANSWERS}", name)]
    listed = re.findall(r"\beach\((\w+), \"", typed)
    wrong += [f"{name} has no enumerator" for name in answers if name.removeprefix("TMV_") not in listed]
    wrong += [f"TMVT_{name} is no answer of trimolaveg.h" for name in listed if f"TMV_{name}" not in answers]

    for path in sorted(FOLDER.glob("*.h")):
        wrong += [f"{path.name} has a parameter '{name}'" for name in re.findall(r"[\w*] \*?(near|far)\s*[,)]", bare(path.name))]

    if wrong:
        sys.exit("header: " + "\nheader: ".join(wrong))
    print(f"header: {len(calls)} typed calls and {len(listed)} enumerators, one for each of trimolaveg.h")


main()
