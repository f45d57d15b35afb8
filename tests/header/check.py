"""Holds include/trimolaveg.h to the Rattle source of the C face: the functions with their parameters, the words of each state, the numbers of the answers."""

import pathlib
import re
import sys

HEADER = pathlib.Path("include/trimolaveg.h")
FACE = [f"crates/{part}_face/src" for part in ("version", "floats", "ring", "scan", "scan_handover", "scan_panel", "scan_panel_reports", "scan_pair", "tracker", "fine", "fine_handover", "ring_window")]
# A static library exports its own functions alone: where other crates stand on a part's crate, the thin crate NAME_c has its calls, with the same clauses.
THIN = ["scan_face", "scan_handover_face", "scan_panel_face"]
# Where an answer's case gets its number.
NUMBERING = [*FACE, "crates/ring_words/src", "crates/scan_words/src", "crates/tracker_words/src", "crates/fine_words/src"]
# A part may have a refusal of its own.
REFUSALS = ["crates/answers/src", "crates/scan_pair/src"]

# Where a state's layout stands if not in the crate of its name.
LAYOUTS = {"pair_words": "scan_pair_words"}

# What a parameter is called in C where its name in the face is a keyword of compilers for small processors.
C_NAMES = {"near": "near_frame", "far": "far_window"}
C_TYPES = {"u32": "uint32_t", "u64": "uint64_t", "f32": "float", "f64": "double", "": "void"}


def sources(folder):
    return "\n".join(path.read_text() for path in sorted(pathlib.Path(folder).glob("*.rt")))


def all_sources(folders):
    return "\n".join(map(sources, folders))


def without_comments(text, pattern):
    return re.sub(pattern, " ", text, flags=re.S)


def c_parameters(parameter):
    """What one parameter of the face is in C: a slice is a pointer and a length."""
    name, kind = (part.strip() for part in parameter.split(":", 1))
    name = C_NAMES.get(name, name)
    slice_of = re.fullmatch(r"&(mut )?\[(\w+)\]", kind)
    if not slice_of:
        return [f"{C_TYPES[kind]} {name}"]
    const = "" if slice_of[1] else "const "
    return [f"{const}{C_TYPES[slice_of[2]]} *{name}", f"size_t {name}_len"]


def face_functions():
    text = without_comments(all_sources(FACE), r"//[^\n]*")
    found = {}
    declared = r'#\[unsafe\(no_mangle\)\]\s*pub extern "C" fn (\w+)\((.*?)\)(?:\s*->\s*(\w+))?'
    for name, parameters, answer in re.findall(declared, text, flags=re.S):
        listed = [part for part in (p.strip() for p in parameters.split(",")) if part]
        in_c = [c for part in listed for c in c_parameters(part)]
        found[name] = f"{C_TYPES[answer]} {name}({', '.join(in_c) or 'void'})"
    return found


def calls(crate):
    """Each exported call of a crate, from its name to its body."""
    text = without_comments(sources(f"crates/{crate}/src"), r"//[^\n]*")
    return dict(re.findall(r'#\[unsafe\(no_mangle\)\]\s*pub extern "C" fn (\w+)(.*?)\n\{', text, flags=re.S))


def exported():
    """The parts that crates.txt lists as static libraries."""
    return set(re.findall(r"^(\w+) staticlib:", pathlib.Path("crates.txt").read_text(), flags=re.M))


def header_functions(text):
    found = {}
    for answer, name, parameters in re.findall(r"^(\w+) (tmv_\w+)\(([^)]*)\);", text, flags=re.M | re.S):
        found[name] = f"{answer} {name}({re.sub(r' +', ' ', parameters.replace(chr(10), ' ')).strip()})"
    return found


def constants(text):
    """Each TMV_ constant with its number and its comment."""
    lines = re.findall(r"^#define (TMV_\w+) (\d+)(?: */\* (.*?) \*/)?$", text, flags=re.M)
    return {name: (int(number), comment) for name, number, comment in lines}


def case_numbers(text, case):
    """The numbers that the arms of a case have: `Enum::Case.. => 17,` or `=> { .. 17 }`. A case of an Option or Result is named by the function that tells it: `tell_place::None`."""
    where, arm = case.split("::")
    if where.islower():
        text = re.search(r"fn " + where + r"\b.*?\n\}\n", text, flags=re.S)[0]
        case = arm
    arms = re.findall(re.escape(case) + r"(?:\([^)]*\))? => (\{.*?\n\s*\}|[^\n]*),?\n", text, flags=re.S)
    ends = (re.search(r"(\d+),?\s*\}?$", arm.rstrip()) for arm in arms)
    return {int(end[1]) for end in ends if end}


def main():
    header = HEADER.read_text()
    bare = without_comments(header, r"/\*.*?\*/")
    wrong = []

    ours, theirs = face_functions(), header_functions(bare)
    wrong += [f"{name} is not in the header" for name in ours.keys() - theirs.keys()]
    wrong += [f"{name} is not in the face" for name in theirs.keys() - ours.keys()]
    wrong += [
        f"{name} differs\n  face:   {ours[name]}\n  header: {theirs[name]}"
        for name in ours.keys() & theirs.keys()
        if ours[name] != theirs[name]
    ]

    wrong += [f"{crate}_c does not have the calls of {crate} with their clauses" for crate in THIN if calls(crate) != calls(f"{crate}_c")]
    parts = {pathlib.Path(folder).parent.name for folder in FACE}
    wrong += [f"crates.txt does not list {part} as a static library" for part in {part + "_c" * (part in THIN) for part in parts} - exported()]

    named = constants(header)
    face = all_sources(FACE)
    for name, (number, _) in named.items():
        if not name.endswith("_WORDS"):
            continue
        layout = LAYOUTS.get(name.removeprefix("TMV_").lower(), name.removeprefix("TMV_").lower())
        words = re.search(r"pub const WORDS: usize = (\d+);", sources(f"crates/{layout}/src"))
        answers = re.search(name.lower() + r"\(\) -> u64[^{]*(?:\{[^{}]*\}[^{]*)?\{\s*" + layout + r"::WORDS as u64\s*\}", face)
        if not answers or not words or words[1] != str(number):
            wrong.append(f"{name} is {number}, and {name.lower()} does not answer it")

    refusals = dict(re.findall(r"pub const (\w+): u8 = (\d+);", all_sources(REFUSALS)))
    for name, number in refusals.items():
        if named.get(f"TMV_{name}", (None,))[0] != int(number):
            wrong.append(f"TMV_{name} is not {number}")

    numbering = "\n".join(sources(folder) for folder in NUMBERING if pathlib.Path(folder).exists())
    cases = 0
    for name, (number, comment) in named.items():
        case = re.match(r"\w+::(\w+::\w+)", comment)
        if not case:
            continue
        cases += 1
        if number not in case_numbers(numbering, case[1]):
            wrong.append(f"{name} is {number}, and no arm of {case[1]} answers it")

    if wrong:
        sys.exit("header: " + "\nheader: ".join(sorted(wrong)))
    print(f"header: {len(ours)} functions, {len(refusals)} refusals and {cases} answers are those of the face")


main()
