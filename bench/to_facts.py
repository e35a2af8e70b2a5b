#!/usr/bin/env python3
"""Writes a packed rule file that is sound as facts for encode.lp, and clasp's answer sets as outcomes.

    to_facts.py < FILE | gringo encode.lp - | clasp 0 | to_facts.py --outcomes N

The last prints what kiosk-list prints of the file without the line of readings, or "refused 31" where there are more than 1,024.
"""
import re
import sys


def facts(data):
    n, sheets, at, number = data[1], data[2], 3, 0
    lines = [f"matter(0..{n - 1})."]
    for sheet in range(sheets):
        end = at + 2 + int.from_bytes(data[at:at + 2], "big")
        for start in range(at + 2, end, 6):
            matter, sign = data[start], data[start + 1]
            lines.append(f"head({number},{matter},{sign}). sheet({number},{sheet}).")
            for way, where in ((1, start + 2), (0, start + 4)):
                named = int.from_bytes(data[where:where + 2], "big")
                lines += [f"body({number},{a},{way})." for a in range(n) if named >> a & 1]
            number += 1
        at = end
    return "\n".join(lines) + "\n"


def outcomes(text, n):
    if not re.search(r"^(SATISFIABLE|UNSATISFIABLE)$", text, re.M):
        raise ValueError("clasp did not finish")
    sets = []
    for answer in re.findall(r"^Answer: \d+\n(.*)$", text, re.M):
        sets.append(sum(1 << int(a) for a in re.findall(r"in\((\d+)\)", answer)))
    if len(sets) > 1024:
        return "refused 31\n"
    return f"1 {len(sets)}\n" + "".join("".join(str(m >> a & 1) for a in range(n)) + "\n" for m in sorted(sets))


if __name__ == "__main__":
    if len(sys.argv) == 3 and sys.argv[1] == "--outcomes":
        sys.stdout.write(outcomes(sys.stdin.read(), int(sys.argv[2])))
    elif len(sys.argv) == 1:
        sys.stdout.write(facts(sys.stdin.buffer.read()))
    else:
        sys.exit(__doc__)
