"""compare/remote/generate.py FOLDER: writes FOLDER/here.c and FOLDER/there.c, of what include/trimolaveg.h declares.

here.c has every function of the header; each hands its call over two pipes to a program on another processor. there.c is that program's main: it makes the call on the archive that it is linked with,
and hands everything back. compare/remote/wire.h is what both share.
"""

import pathlib
import re
import sys

HEADER = pathlib.Path("include/trimolaveg.h")
ELEMENT = r"(const )?(\w+) \*(\w+)"


def functions():
    text = re.sub(r"/\*.*?\*/", " ", HEADER.read_text(), flags=re.S)
    for answer, name, inside in re.findall(r"^(\w+) (tmv_\w+)\(([^)]*)\);", text, flags=re.M | re.S):
        yield answer, name, [] if inside == "void" else [" ".join(part.split()) for part in inside.split(",")]


def parameters(listed):
    """Lists as (const, type, name), numbers as (type, name); a list's length is part of it."""
    found = []
    for part in listed:
        one = re.fullmatch(ELEMENT, part)
        if one:
            found.append((bool(one[1]), one[2], one[3]))
        elif not part.startswith("size_t "):
            found.append(tuple(part.split()))
    return found


def here(number, answer, name, listed):
    lines = [f"{answer} {name}({', '.join(listed) or 'void'})", "{", f"    begin_call({number});"]
    given = parameters(listed)
    for one in given:
        if len(one) == 3:
            lines.append(f"    send_list({one[2]}, {one[2]}_len, sizeof *{one[2]});")
        else:
            lines.append(f"    send_number({'float_bits(' + one[1] + ')' if one[0] == 'float' else one[1]});")
    lines.append("    end_call();" if answer == "void" else "    uint64_t answer = end_call();")
    for one in given:
        if len(one) == 3:
            lines.append(f"    {'same' if one[0] else 'take'}_list({one[2]}, {one[2]}_len, sizeof *{one[2]});")
    if answer != "void":
        lines.append(f"    return ({answer})answer;")
    return "\n".join([*lines, "}", ""])


def there(number, answer, name, listed):
    lines = [f"static void call_{number}(void)", "{"]
    handed, back = [], []
    for place, one in enumerate(parameters(listed)):
        if len(one) == 3:
            lines.append(f"    struct list {one[2]} = take_list({place}, sizeof({one[1]}));")
            handed += [f"({one[1]} *){one[2]}.at", f"{one[2]}.len"]
            back.append(f"    send_list({one[2]}, sizeof({one[1]}));")
        else:
            lines.append(f"    {one[0]} {one[1]} = {'float_of' if one[0] == 'float' else f'({one[0]})'}(take_number());")
            handed.append(one[1])
    call = f"{name}({', '.join(handed)})"
    lines += [f"    {call};", "    send_number(0);"] if answer == "void" else [f"    send_number({call});"]
    return "\n".join([*lines, *back, "}", ""])


def main():
    folder = pathlib.Path(sys.argv[1])
    all_of_them = list(functions())
    begin = '#include "trimolaveg.h"\n\n#define {}\n#include "wire.h"\n\n'
    one_side = [here(number, *function) for number, function in enumerate(all_of_them)]
    other_side = [there(number, *function) for number, function in enumerate(all_of_them)]
    table = ", ".join(f"call_{number}" for number in range(len(all_of_them)))
    (folder / "here.c").write_text(begin.format("HERE") + "\n".join(one_side))
    (folder / "there.c").write_text(begin.format("THERE") + "\n".join(other_side) + f"\nint main(void)\n{{\n    static void (*const calls[])(void) = {{{table}}};\n    return serve(calls, sizeof calls / sizeof *calls);\n}}\n")


main()
