"""Says which wrong programs cannot be tried, since what they change does not stand exactly once in the tree."""

import sys

from programs import Bad, all_programs, changes, read

wrong = 0
for path in all_programs():
    try:
        list(changes(read(path)))
    except Bad as bad:
        wrong += 1
        print(f"wrong: {path.parent.name}/{path.stem}: {bad}")
print(f"wrong: {len(all_programs())} programs, {wrong} of which cannot be tried")
sys.exit(wrong > 0)
