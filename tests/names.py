"""One name, one meaning: no two definitions in specs/ have the same name within a crate and the crates that it cites."""
import pathlib
import re
import sys

HOME = pathlib.Path(__file__).resolve().parent.parent
DECLARED = re.compile(r"^(?:abbrev |unfoldable )?pub (?:data |record )?([^\s:(]+)", re.M)
CITED = re.compile(r"Rattle\.(\w+)\.(?:specs|proofs)\b")


def definitions(crate):
    """Lists (name, page) of what a crate's specs declare for others."""
    for page in sorted((crate / "specs").rglob("*.antt")):
        for name in DECLARED.findall(page.read_text()):
            if name not in ("mod", "use"):
                yield name, page.relative_to(HOME)


def cited(crate):
    """Names the crates that a crate's pages and code cite."""
    pages = [p for part in ("src", "specs", "proofs") for p in (crate / part).rglob("*") if p.suffix in (".antt", ".rt")]
    return {name for page in pages for name in CITED.findall(page.read_text())} - {crate.name}


def collisions(crate, of):
    """Says each name of the crate that one of its own pages, or a crate that it cites, declares too."""
    own = {}
    for name, page in of[crate.name]:
        if name in own:
            yield f"`{name}` is declared in {own[name]} and in {page}"
        own[name] = page
    for other in sorted(cited(crate) & of.keys()):
        for name, page in of[other]:
            if name in own:
                yield f"`{name}` is declared in {own[name]} and in {page}, which {crate.name} cites"


crates = sorted(p for p in (HOME / "crates").iterdir() if p.is_dir())
of = {crate.name: list(definitions(crate)) for crate in crates}
wrong = [line for crate in crates for line in collisions(crate, of)]
for line in wrong:
    print("names:", line)
print(f"names: {sum(map(len, of.values()))} definitions, {len(wrong)} names with two meanings")
sys.exit(1 if wrong else 0)
