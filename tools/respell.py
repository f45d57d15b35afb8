#!/usr/bin/env python3
"""Respells the repository's own definitions and lemmas: snake case in place of camel case and of dashes. Run once, at the top of the tree, behind port.py.

A name is one that specs/ or a lemma file of proofs/ declares. A lemma that would then be spelled like its function ends in `_lem`. Names of src/, generated names and
names of the kit stay. It turns .antt files, the clauses and imports of .rt files, the texts of the wrong programs, and what the pages name in backticks.
`--report` changes nothing and prints what falls together."""
import collections
import glob
import os
import re
import sys

OWN = {line.split(":")[0].split()[0] for line in open("crates.txt") if line.strip() and not line.startswith("#")}
DECLARED = re.compile(r"^(\s*)((?:(?:unfoldable|abbrev|pattern|pub)\s+)*)([^\s:(){}.,;]+)\s*(?:\{[^}]*\}\s*)?:\s")
HEADED = re.compile(r"^\s*(?:pub\s+)?(?:record|data|ruleset)\s+([^\s:(){}.]+)")
# What is neither a lemma nor to be spelled like the definition that its name falls together with: a constructor of each.
CONSTRUCTORS = {"root-of": "root_row", "by-reset": "by_reset_call"}
# Functions into Type, which are types.
TYPES = {"callRefused": "CallRefused", "pairRefused": "PairRefused", "pairAccepted": "PairAccepted"}
# Lemmas in snake case already that would fall together with a definition of theirs.
LEMMAS = {"one_later": "one_later_lem", "no_lines": "no_lines_lem", "is-nan": "is_nan_lem"}
# Crates in which the name falls together with nothing.
ALONE = {"first-strange": {"log_passes", "log_report", "parts_walks", "parts_host", "parts_suite", "parts_main"}}
# A token: what stands between spaces and delimiters.
TOKEN = re.compile(r"[^\s(){}\[\],;:.\"`|@#&/<>=+*%!?~^→λ∷≡×∙←↦⌜⌝]+")


def antt_files():
    return sorted(glob.glob("crates/*/specs/**/*.antt", recursive=True) + glob.glob("crates/*/proofs/**/*.antt", recursive=True))


def snake(name):
    words = re.sub(r"(?<=[a-z0-9])(?=[A-Z])|(?<=[A-Z])(?=[A-Z][a-z])", "_", name.replace("-", "_"))
    return words if words[0].isupper() else words.lower()


def declared():
    found = collections.defaultdict(set)
    for path in antt_files():
        if path.endswith("/Proof.antt"):
            continue
        for line in open(path):
            if line.lstrip().startswith("--"):
                continue
            m = HEADED.match(line)
            if m:
                found[m.group(1)].add(path)
                continue
            m = DECLARED.match(line)
            if m and m.group(3) not in ("let", "in", "use", "where", "module"):
                found[m.group(3)].add(path)
    return found


def renames():
    found = declared()
    to = {n: snake(n) for n in found if not n[0].isupper() and snake(n) != n}
    to.update({n: n.replace("-", "_") for n in found if n[0].isupper() and "-" in n})
    camel = {s for n, s in to.items() if "-" not in n}
    for n in list(to):
        if n in CONSTRUCTORS:
            to[n] = CONSTRUCTORS[n]
        elif n in TYPES:
            to[n] = TYPES[n]
        elif "-" in n and (to[n] in camel or to[n] in found):
            to[n] += "_lem"
    to.update({n: s for n, s in LEMMAS.items() if n in found})
    return to, found


def name_in(path, name, to):
    crate = path.split("/")[1] if path.startswith("crates/") else path.split("/")[2]
    if crate in ALONE.get(name, ()):
        return snake(name)
    return to[name]


USE = re.compile(r"^\s*(?:pub )?use (\S+?)\.\{([^}]*)\}")


def foreign(text):
    """What a file imports from elsewhere than this repository."""
    names = set()
    for line in text.split("\n"):
        m = USE.match(line)
        if m:
            parts = m.group(1).split(".")
            if not (parts[0] == "Rattle" and len(parts) > 1 and parts[1] in OWN):
                names |= {n.strip().split(" as ")[0] for n in m.group(2).split(",")}
    return names


def relation(path, text):
    """`accepted` of the scan's streams is a relation, and so a type."""
    if path.endswith("scan/specs/Streams.antt") and "abbrev pub accepted :" in text or re.search(r"Rattle\.scan\.specs\.Streams\.\{[^}]*\baccepted\b", text):
        text = re.sub(r"(?<![.\w'-])accepted(?= slack\b)", "Accepted", text)
        text = text.replace("abbrev pub accepted :", "abbrev pub Accepted :")
        text = re.sub(r"(Rattle\.scan\.specs\.Streams\.\{[^}]*)\baccepted\b", r"\1Accepted", text)
    return text


def turn(path, text, to, seen):
    keep = foreign(text)
    dashes = path.endswith(".antt")
    ghost = False
    out = []
    for line in text.split("\n"):
        code, mark, comment = line, "", ""
        if path.endswith(".antt"):
            at = re.search(r"(?:^|\s)--(?:\s|$)", line)
            if at:
                code, comment = line[: at.start()], line[at.start() :]
        elif path.endswith(".rt"):
            at = re.search(r"(?:^|\s)//(?:\s|$)", line)
            if at:
                code, comment = line[: at.start()], line[at.start() :]

        def each(m, dashes=dashes):
            n = m.group(0)
            if n in to and n not in keep and (dashes or "-" not in n):
                seen[path].add(n)
                return name_in(path, n, to)
            return n

        clause = path.endswith(".rt") and re.match(r"\s*(?:ghost |requires|ensures|invariant|[^/]*\b(?:requires|ensures)\b)", code)
        code = TOKEN.sub(lambda m: each(m, dashes or bool(clause)), code)
        comment = TOKEN.sub(lambda m: each(m, False), comment)
        comment = re.sub(r"`([^`]+)`", lambda m: "`" + TOKEN.sub(lambda k: each(k, True), m.group(1)) + "`", comment)
        out.append(code + comment)
    return relation(path, "\n".join(out))


def main():
    report = "--report" in sys.argv
    to, found = renames()
    paths = antt_files() + sorted(glob.glob("crates/*/src/**/*.rt", recursive=True))
    edits = sorted(glob.glob("tests/wrong/*/*.edit") + glob.glob("crates/*/must-fail/*.edit"))
    seen = collections.defaultdict(set)
    for path in paths:
        text = open(path, encoding="utf-8").read()
        new = turn(path, text, to, seen)
        if report:
            tokens = set(TOKEN.findall(text))
            made = collections.defaultdict(set)
            for n in seen[path]:
                made[name_in(path, n, to)].add(n)
            for s, ns in made.items():
                if len(ns) > 1 or s in tokens:
                    print("together:", path, s, sorted(ns), "and " + s if s in tokens else "")
        elif new != text:
            open(path, "w", encoding="utf-8").write(new)
    for path in edits:
        text = open(path, encoding="utf-8").read()
        lines, file = [], ""
        for line in text.split("\n"):
            if line.startswith("file: "):
                file = line[6:]
            if re.match(r"(old|new): ", line):
                new = TOKEN.sub(lambda m: name_in(path, m.group(0), to) if m.group(0) in to and (file.endswith(".antt") or "-" not in m.group(0)) else m.group(0), line)
                line = new
            lines.append(line)
        if not report and "\n".join(lines) != text:
            open(path, "w", encoding="utf-8").write("\n".join(lines))
    pages = [p for p in sorted(glob.glob("docs/**/*.md", recursive=True)) + ["README.md", "CONTRIBUTING.md"] if os.path.exists(p)]
    for path in pages:
        text = open(path, encoding="utf-8").read()
        new = re.sub(r"`([^`\n]+)`", lambda m: "`" + TOKEN.sub(lambda k: to.get(k.group(0), k.group(0)), m.group(1)) + "`", text)
        if not report and new != text:
            open(path, "w", encoding="utf-8").write(new)
    print(f"rename: {len(to)} names", file=sys.stderr)


main()
