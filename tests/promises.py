"""Holds docs/PROMISES.md and docs/DETERMINED.md to the tree, so that the papers cannot drift from it.

Every name in the tables of PROMISES.md must be declared where the table says: `crate: \\`name\\`` as a definition, function or theorem of that crate, or as one of its wrong
programs; that a comment or an import mentions it is not enough. `crates/..: \\`name\\`` must be declared in that file.
DETERMINED.md lists each public call with the theorems that its contract admits one result, and WHERE.md each name of PROMISES.md with the file that declares it;
`promises.py --write` writes both anew.
Every call of that list has two wrong bodies, which tests/wrong/try or `rt ci` tries.
"""

import pathlib
import re
import sys

ROOT = pathlib.Path(__file__).resolve().parent.parent
CRATES = ROOT / "crates"
# The crates whose calls a host makes.
CALLED = ["floats", "ring", "tracker", "scan_calls", "scan_push", "scan_runs", "scan_handover", "scan_score", "scan_panel_calls", "scan_pair_calls", "fine", "fine_gate", "fine_handover", "fine_peak", "ring_window", "log_lines", "log_text", "log_parts", "log_passes", "log_report", "recording_shorts", "log_hold", "log_says", "recording", "recording_convert", "recording_store", "wav", "recording_make", "replay", "replay_next", "version_face", "floats_face", "ring_face", "tracker_face", "fine_face", "scan_face", "scan_handover_face", "scan_panel_face", "scan_panel_reports_face", "scan_pair_face", "fine_handover_face", "ring_window_face"]
# Public only for the crates above them; a host calls none of these. Each is pinned by an equation in its contract all the same.
INNER = {
    "floats": ["bits.rt"],
    "scan_calls": ["clearing.rt", "parts.rt", "restart.rt", "rules.rt"],
    "scan_push": ["far.rt", "level.rt", "near.rt", "sums.rt"],
    "scan_handover": ["fill.rt", "part.rt"],
    "scan_score": ["refusal.rt", "window.rt", "observe_with"],
    "ring_window": ["cutting.rt", "patterns.rt", "storing.rt", "values.rt"],
    "scan_pair_calls": ["parts.rt", "restart.rt"],
    "scan_panel_calls": ["profile.rt", "made.rt"],
    "scan_panel_face": ["judge"],
    "log_lines": ["put", "put_line", "put_number", "put_numbers"],
    "log_hold": ["hold_next"],
    "tracker": ["evidence"],
    "fine": ["of", "with_frames"],
    "replay": ["events.rt", "starting.rt", "words.rt"],
}


def names_of(crate):
    """Every name that a crate declares: definitions, theorems, fields and cases, functions, types and constants, its pages, and its wrong programs."""
    found = {path.stem for path in wrong_programs(crate)}
    for path in (path for part in ("src", "specs", "proofs") for path in (CRATES / crate / part).rglob("*")):
        if path.suffix == ".antt":
            found.add(path.stem)
            found.update(re.findall(r"^ *(?:(?:pub|abbrev|unfoldable|record|data) +)*(?:record |data )?([^\s(){}:=]+)(?: +:| +\(.*\) :)", path.read_text(), re.M))
        if path.suffix == ".rt":
            found.add(path.stem)
            found.update(re.findall(r"\b(?:fn|struct|enum|const|mod) (\w+)", path.read_text()))
            found.update(re.findall(r"^    (?:pub )?([A-Za-z_]\w*)(?:\(.*\)|: .*)?,", path.read_text(), re.M))
    return {name.strip("«»") for name in found}


def wrong_programs(crate):
    """The wrong programs of a crate: those that `rt ci` tries, and those that tests/wrong/try does."""
    return sorted((CRATES / crate / "must-fail").glob("*.edit")) + sorted((ROOT / "tests" / "wrong" / crate).glob("*.edit"))


def declares(text, name):
    """Whether a file declares a name: a function, type, constant, a case of an enum with what it holds, or a definition."""
    plain = re.escape(name)
    return re.search(rf"\b(?:fn|struct|enum|const) {plain}\b|^ +{plain},|^(?:\w+ )*{plain} (?::|\(.*\) :)", text, re.M) is not None


def known_crates():
    lines = (ROOT / "crates.txt").read_text().splitlines()
    return {line.split(":")[0].split()[0] for line in lines if line and not line.startswith("#")}


def named(text, crates):
    """What the tables of a paper name: (line, crate, name), and (line, path, name) where a file is named."""
    default = None
    for number, line in enumerate(text.splitlines(), 1):
        if not line.startswith("|"):
            default = None
            continue
        for place, cell in enumerate(line.strip("|").split(" | ")):
            # the first cell is the sentence itself; only the row of headings says there which crate the rows below mean
            crate = default if place else None
            for token in re.finditer(r"(crates/[\w/.]+): `([^`]+)`|\b(\w+)(?=: )|`([^`]+)`", cell):
                path, there, word, name = token.groups()
                if path:
                    yield number, path, there
                elif word in crates:
                    crate = word
                    if "(" + word + ": " in cell and "Definition" in cell:
                        default = word
                elif name and crate:
                    yield number, crate, re.split(r"::| ", name)[-1]


def missing_names(text, crates):
    """What the tables of a paper name and the tree has not."""
    names = {crate: names_of(crate) for crate in crates}
    for number, where, name in named(text, crates):
        if "/" in where:
            if not (ROOT / where).exists() or not declares((ROOT / where).read_text(), name):
                yield f"PROMISES.md:{number}: {where} does not declare `{name}`"
        elif name not in names[where]:
            yield f"PROMISES.md:{number}: `{name}` is not in crate {where}"


def where(text, crates):
    """The page that says in which file each definition, function and theorem of PROMISES.md is declared."""
    lines = [
        "# Where the names of PROMISES stand",
        "",
        "Each definition, function and theorem that [PROMISES](PROMISES.md) names, with the file that declares it. Wrong programs are files of their own name, in `crates/CRATE/must-fail` or",
        "`tests/wrong/CRATE`. This page is written by `tests/promises.py --write` and held to the tree by `./test`.",
        "",
        "| Crate | Name | File |",
        "|---|---|---|",
    ]
    sources = {crate: [p for kind in ("specs", "src", "proofs") for p in sorted((CRATES / crate / kind).rglob("*")) if p.suffix in (".rt", ".antt") and p.stem not in ("Proof", "Answers", "Invariants")] for crate in crates}
    texts = {path: path.read_text() for paths in sources.values() for path in paths}
    for crate, name in sorted({(c, n) for _, c, n in named(text, crates) if "/" not in c}):
        files = [p for p in sources[crate] if declares(texts[p], name)]
        # a definition and the function that it defines have one name: the first file of each sort, or else of the proofs
        first = {p.relative_to(CRATES / crate).parts[0]: p for p in reversed(files)}
        kinds = [kind for kind in ("specs", "src") if kind in first] or list(first)
        lines += [f"| {crate} | `{name}` | [{first[kind].relative_to(CRATES / crate)}](../{first[kind].relative_to(ROOT)}) |" for kind in kinds]
    return "\n".join(lines) + "\n"


def public_calls(crate):
    """The public functions of a crate that ask nothing of their caller, in the order of the source."""
    for path in sorted((CRATES / crate / "src").rglob("*.rt")):
        text = path.read_text()
        for match in re.finditer(r"pub (?:extern \"C\" )?fn (\w+)[^{]*?\n?\s*(?:\(|<)", text):
            contract = text[match.start() : text.find("\n{", match.start())]
            if "impl" in text and text.rfind("\nimpl ", 0, match.start()) > text.rfind("\n}", 0, match.start()):
                contract = text[match.start() : text.find("\n    {", match.start())]
            inner = INNER.get(crate, [])
            if "requires" not in contract and path.name not in inner and match.group(1) not in inner:
                yield match.group(1), path.relative_to(ROOT)


def plain(crate, call):
    """A call's name in its theorems: for the C face without the prefix that all calls of its crate have."""
    prefix = "tmv_" + crate.removesuffix("_face") + "_"
    shared = all(other.startswith(prefix) for other, _ in public_calls(crate))
    return call.removeprefix(prefix if shared else "tmv_")


def theorems(crate, call):
    """The theorems about a call, in Determined. A theorem is about the call with the longest name that begins it."""
    file = CRATES / crate / "proofs" / "Determined.antt"
    known = re.findall(r"^pub (\w+_once) :", file.read_text(), re.M) if file.exists() else []
    names = [plain(crate, other) for other, _ in public_calls(crate)]
    longest = {t: max((name for name in names if t.startswith(name + "_")), key=len, default="") for t in known}
    mine = [t for t in known if longest[t] == plain(crate, call)]
    return mine if plain(crate, call) + "_once" in mine else []


def determined(crates):
    """The listing, and the calls that have no theorem."""
    lines = [
        "# Determinism, call by call",
        "",
        "Each public call's contract admits one result, and one list in each lent buffer. The theorems stand in `proofs/Determined.antt` of the call's crate; each is",
        "about the contract alone, so it fails when somebody weakens an `ensures`. This page is written by `tests/promises.py --write` and held to the tree by `./test`.",
        "",
        "One thing no contract here can tell: which of the NaN patterns stands in a lent float buffer. The logic has one NaN, so that an element which stays a NaN is fixed up to its payload. Only",
        "`tmv_ring_window_floats` (`window_floats`) writes a NaN, where the ring holds one: its contract fixes that the float is a NaN, and every other float to the bit; `tmv_ring_window` gives the NaN's own bits.",
        "`compare/face` holds every other lent buffer to its bits, with signalling and payload NaNs in all of them (docs/DECISIONS.md says what it would cost to have this in the contracts).",
        "",
        "| Call | Theorems |",
        "|---|---|",
    ]
    left_out = []
    for crate in CALLED:
        if crate not in crates:
            continue
        for call, path in public_calls(crate):
            mine = theorems(crate, call)
            if mine:
                lines.append(f"| {crate}: `{call}` ({path.name}) | {', '.join('`' + t + '`' for t in mine)} |")
            else:
                left_out.append(f"{crate}: {call} ({path})")
    return "\n".join(lines) + "\n", left_out


def called_by(path):
    """The call that a wrong program is a body of, as module::call without a method's type, or None."""
    said = re.search(r"^call: ([\w:]+)$", path.read_text(), re.M)
    parts = [part for part in said[1].split("::") if part[0].islower()] if said else []
    return "::".join(parts if len(parts) > 1 else ["lib"] + parts) if said else None


def missing_wrong_bodies(crates):
    """The calls that have fewer than two wrong bodies, and the wrong bodies of what is no public call."""
    for crate in CALLED:
        calls = [f"{path.stem}::{call}" for call, path in public_calls(crate)] if crate in crates else []
        have = [call for call in map(called_by, wrong_programs(crate)) if call]
        yield from (f"{crate}: {call} has {have.count(call)} wrong bodies, and two are owed" for call in calls if have.count(call) < 2)
        yield from (f"{crate}: a wrong program's 'call: {call}' names no public call" for call in sorted(set(have) - set(calls)))


def main():
    crates = known_crates()
    page, left_out = determined(crates)
    promises = (ROOT / "docs" / "PROMISES.md").read_text()
    listings = {"DETERMINED.md": page, "WHERE.md": where(promises, crates)}
    if sys.argv[1:] == ["--write"]:
        for name, text in listings.items():
            (ROOT / "docs" / name).write_text(text)
    wrong = list(missing_names(promises, crates))
    wrong += [f"{call}: no theorem says that its contract admits one result" for call in left_out]
    wrong += missing_wrong_bodies(crates)
    for name, text in listings.items():
        if (ROOT / "docs" / name).read_text() != text:
            wrong.append(f"docs/{name} is not what the tree gives: run tests/promises.py --write")
    for line in wrong:
        print(f"promises: {line}")
    calls = len(re.findall(r"^\| \w+: ", page, re.M))
    print(f"promises: {calls} calls determined, {len(wrong)} things wrong")
    sys.exit(1 if wrong else 0)


if __name__ == "__main__":
    main()
