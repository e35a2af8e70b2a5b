#!/usr/bin/env python3
"""Makes the rule files of the bench; each run makes the same bytes.

    make_files.py DIRECTORY            writes the named files there, one for each kind, NAME.sheets
    make_files.py --random SEED COUNT  writes COUNT random files, sound and damaged, to standard output, each after its length in four bytes
"""
import itertools
import os
import random
import sys

MATTERS, SHEETS, RULES = 16, 32, 256


def pack(n, sheets):
    """The bytes of a file: a rule is (matter, sign, yes set, no set)."""
    out = bytearray([1, n, len(sheets)])
    for rules in sheets:
        out += (6 * len(rules)).to_bytes(2, "big")
        for matter, sign, yes, no in rules:
            out += bytes([matter, sign]) + yes.to_bytes(2, "big") + no.to_bytes(2, "big")
    return bytes(out)


def bits(matters):
    return sum(1 << a for a in set(matters))


def rule(head, yes=(), no=()):
    """A rule; a head of -1 - a is "no a"."""
    return (head, 1, bits(yes), bits(no)) if head >= 0 else (-1 - head, 0, bits(yes), bits(no))


def no(a):
    return -1 - a


def spread(rng, n, rules, count):
    """The rules dealt out over sheets at random; the order within a sheet is that of the list."""
    sheets = [[] for _ in range(count)]
    for r in rules:
        sheets[rng.randrange(count)].append(r)
    return pack(n, sheets)


def random_rule(rng, n, low, high, no_heads=0.5):
    named = rng.sample(range(n), min(n, rng.randint(low, high)))
    yes = [a for a in named if rng.random() < 0.5]
    head = rng.randrange(n)
    return rule(no(head) if rng.random() < no_heads else head, yes, [a for a in named if a not in yes])


def some_of(group, k):
    """Rules whose outcomes are the sets of exactly k matters of the group: each is in if the group's absent ones suffice without it."""
    need = len(group) - k
    return [rule(a, (), out) for a in group for out in itertools.combinations([b for b in group if b != a], need)]


def pairs(n=MATTERS):
    return [rule(a, (), [a ^ 1]) for a in range(n)]


def never(*literals):
    """Two rules, for one sheet on top, that let no outcome hold these yes matters together."""
    return [rule(literals[0], literals), rule(no(literals[0]), literals)]


# The named files


def facts(rng):
    return spread(rng, 16, [rule(rng.choice([a, no(a)])) for _ in range(RULES // 16) for a in range(16)], SHEETS)


def even_loops(rng):
    return pack(16, [pairs()])


def short_bodies(rng):
    return spread(rng, 16, [random_rule(rng, 16, 0, 3) for _ in range(RULES)], SHEETS)


def short_bodies_open(rng):
    """Bodies of two or three literals over the choice pairs, so that much stays open."""
    rules = pairs() + [random_rule(rng, 16, 2, 3) for _ in range(RULES - 16)]
    return spread(rng, 16, rules, 4)


def long_bodies(rng):
    return spread(rng, 16, pairs() + [random_rule(rng, 16, 8, 16) for _ in range(RULES - 16)], SHEETS)


def odd_loops(rng):
    rules = []
    for a in range(0, 15, 3):
        rules += [rule(a, (), [a + 1]), rule(a + 1, (), [a + 2]), rule(a + 2, (), [a])]
    return pack(16, [rules + [rule(15, (), [15])]])


def odd_loops_wide(rng):
    """One odd loop, a choice of everything else, and long rules on top: no outcome, and little of it shows before the end."""
    loop = [rule(0, (), [1]), rule(1, (), [2]), rule(2, (), [0])]
    choice = [rule(a, (), [a + 1 if a % 2 else a - 1]) for a in range(3, 15)] + [rule(15, (), [15, 3]), rule(15, [3])]
    more = [rule(3 + rng.randrange(12), *split(rng, rng.sample(range(16), 7))) for _ in range(RULES - len(loop) - len(choice))]
    return pack(16, [loop + choice] + [more[i::SHEETS - 1] for i in range(SHEETS - 1)])


def split(rng, named):
    yes = [a for a in named if rng.random() < 0.5]
    return yes, [a for a in named if a not in yes]


def turns(rng):
    """Each sheet takes back what the sheet below it grants."""
    sheets = [pairs()]
    for s in range(1, SHEETS):
        heads = [rng.randrange(16) for _ in range(7)]
        sheets.append([rule(a if s % 2 else no(a), [b for b in [(a + 2) % 16] if s % 3], [b for b in [(a + 5) % 16] if s % 5])
                       for a in heads])
    return pack(16, sheets)


def contradictions(rng):
    """Both signs of a head with one body on one sheet, 128 times over; newer sheets settle some."""
    sheets = [[] for _ in range(SHEETS)]
    for k in range(RULES // 2):
        a = k % 16
        yes, out = split(rng, rng.sample(range(16), rng.randint(2, 4)))
        sheets[k % SHEETS] += [rule(a, yes, out), rule(no(a), yes, out)]
    return pack(16, sheets)


def contradictions_flat(rng):
    """Contradictory facts on one sheet, so that matters read b."""
    return pack(16, [[rule(a) for a in range(16)] + [rule(no(a)) for a in range(0, 16, 2)] +
                     [random_rule(rng, 16, 1, 3) for _ in range(RULES - 24)]])


def chains(rng):
    """A chain through all matters, written backwards, so that a pass over the rules adds one literal; the start is a choice."""
    chain = [rule(a, [a - 1]) for a in range(15, 1, -1)]
    start = [rule(0, (), [1]), rule(1, (), [0])]
    longer = [rule(a, [a - 1, a - 2]) for a in range(15, 2, -1)]
    back = [rule(no(a), (), [a - 1]) for a in range(15, 1, -1)]
    return pack(16, [chain + start, longer + back] + [chain] * 13)


def choice_of_all(rng):
    """256 rules and nothing decided: choice pairs, and rules on top with heads of both signs and long bodies."""
    rules = [random_rule(rng, 16, 5, 8) for _ in range(RULES - 16)]
    return pack(16, [pairs()] + [rules[i::SHEETS - 1] for i in range(SHEETS - 1)])


def few_open(rng):
    """Rules of all kinds below; above, a chain settles thirteen matters, and of the other three exactly one is in."""
    below = [r for r in (random_rule(rng, 16, 1, 4) for _ in range(400)) if r[0] < 13][:RULES - 16]
    chain = [rule(a, [a - 1] if a else ()) for a in range(13)]
    return pack(16, [below[i::31] for i in range(31)] + [chain + some_of([13, 14, 15], 1)])


def tautologies(rng):
    """Rules "a if a" and "no a if no a" above choice pairs: each of the 65,536 sets is supported, and only the closure tells."""
    own = [rule(a, [a]) for a in range(16)] + [rule(no(a), (), [a]) for a in range(16)]
    own += [rule(a, [a, b]) for a in range(16) for b in ((a + 3) % 16, (a + 7) % 16)]
    own += [rule(no(a), (), [a, b]) for a in range(16) for b in ((a + 3) % 16, (a + 7) % 16)]
    return pack(16, [pairs(), own])


def tautologies_wide(rng):
    """The same with 256 rules and bodies that reach over to other pairs."""
    own = [rule(a, [a]) for a in range(16)] + [rule(no(a), (), [a]) for a in range(16)]
    while len(own) < RULES - 16:
        a = rng.randrange(16)
        yes, out = split(rng, rng.sample([b for b in range(16) if b != a], rng.randint(1, 5)))
        own.append(rule(a, yes + [a], out) if rng.random() < 0.5 else rule(no(a), yes, out + [a]))
    return pack(16, [pairs(), own])


def groups_of_four():
    return [r for g in range(0, 16, 4) for r in some_of(range(g, g + 4), 2)]


def trimmed(kills):
    """6^4 = 1,296 outcomes, of which the top sheet forbids as many as there are below each pattern in `kills`."""
    ways = list(itertools.combinations(range(4), 2))
    top = []
    for pattern in kills:
        top += never(*[4 * g + a for g, way in enumerate(pattern) for a in ways[way]])
    return pack(16, [groups_of_four(), top])


def kills(extra):
    """1,296 - 272 = 1,024: seven patterns of 36 sets, three of six, and two of one, less `extra` of the last."""
    some = [(0, w) for w in range(6)] + [(1, 0)]
    some += [(1, 1, w) for w in range(3)]
    return some + [(1, 1, 3, w) for w in range(2 - extra)]


def list_full(rng):
    return trimmed(kills(0))


def list_over(rng):
    return trimmed(kills(1))


def list_far_over(rng):
    return pack(16, [some_of(range(6), 3) + some_of(range(6, 12), 3) + some_of(range(12, 16), 2)])


def fast_worst(rng, seed=28):
    """The slowest we found for the fast program: nearly each set is supported by rules that support themselves, on 31 sheets."""
    rng = random.Random(f"fast-worst {seed}")
    own = [rule(a, [a]) for a in range(16)] + [rule(no(a), (), [a]) for a in range(16)]
    base = groups_of_four()
    while len(base) + len(own) < RULES:
        a = rng.randrange(16)
        yes, out = split(rng, rng.sample([b for b in range(16) if b != a], rng.randint(3, 5)))
        negative, itself = rng.random() < 0.3, rng.random() < 0.38
        own.append(rule(no(a), yes, out + [a] * itself) if negative else rule(a, yes + [a] * itself, out))
    return pack(16, [base] + [own[i::SHEETS - 1] for i in range(SHEETS - 1)])


def plain_worst(rng, heads=1):
    """The slowest we found for the plain program: nothing decided, and 240 rules that clash with half of the others and are seldom true."""
    rules = []
    for _ in range(RULES - 16):
        a = rng.randrange(heads)
        rules.append(rule(rng.choice([a, no(a)]), *split(rng, rng.sample(range(16), rng.randint(9, 12)))))
    return pack(16, [pairs()] + [rules[i::SHEETS - 1] for i in range(SHEETS - 1)])


def plain_worst_two(rng):
    return plain_worst(rng, 2)


NAMED = [
    ("facts", facts), ("even-loops", even_loops), ("short-bodies", short_bodies), ("short-bodies-open", short_bodies_open),
    ("long-bodies", long_bodies), ("odd-loops", odd_loops), ("odd-loops-wide", odd_loops_wide), ("turns", turns),
    ("contradictions", contradictions), ("contradictions-flat", contradictions_flat), ("chains", chains), ("few-open", few_open),
    ("tautologies", tautologies), ("tautologies-wide", tautologies_wide), ("list-full", list_full), ("list-over", list_over),
    ("list-far-over", list_far_over), ("choice-of-all", choice_of_all), ("fast-worst", fast_worst),
    ("plain-worst", plain_worst), ("plain-worst-two", plain_worst_two),
]


def named(directory):
    os.makedirs(directory, exist_ok=True)
    for name, make in NAMED:
        with open(os.path.join(directory, name + ".sheets"), "wb") as out:
            out.write(make(random.Random("bench " + name)))


# The random files

WORK = 3_000_000  # at most this many sets times pairs of rules, so that the plain program takes milliseconds


def mixed_rules(rng, n, count):
    low = rng.choice([0, 0, 1, 1, 2])
    high = low + rng.choice([0, 1, 2, 2, n])
    no_heads = rng.choice([0.0, 0.2, 0.5, 0.8])
    rules = []
    while len(rules) < count:
        kind = rng.random()
        a, b = rng.randrange(n), rng.randrange(n)
        if kind < 0.15:
            rules += [rule(a, (), [b]), rule(b, (), [a])]
        elif kind < 0.20:
            rules += [rule(a, [b]), rule(no(a), [b])]
        elif kind < 0.25:
            rules.append(rule(a, [a]) if rng.random() < 0.5 else rule(no(a), (), [a]))
        elif kind < 0.28:  # a body with both signs of a matter
            rules.append(rule(rng.choice([a, no(a)]), [b], [b] + [rng.randrange(n)]))
        elif kind < 0.33:
            rules += [rule(a), rule(no(a), (), [b]), rule(b, [a])]
        else:
            rules.append(random_rule(rng, n, low, high, no_heads))
    return rules[:count]


def sound(rng):
    kind = rng.random()
    if kind < 0.04:
        n, rules = 4 * rng.randint(1, 2), []
        for g in range(0, n, 4):
            rules += some_of(range(g, g + 4), rng.randint(1, 3))
    elif kind < 0.06:
        n = 2 * rng.randint(1, 6)
        rules = pairs(n) + mixed_rules(rng, n, rng.randint(0, 4))
    elif kind < 0.065:  # far over 1,024 outcomes is out of reach of few rules; this gives 6^4 from 48
        n, rules = 16, groups_of_four()
    else:
        n = rng.choice([1, 2, 2, 3, 3, 4, 4, 5, 5, 6, 6, 7, 8, 9, 10, 12, 14, 16])
        most = min(RULES, int((WORK >> n) ** 0.5))
        count = rng.randint(0, min(most, rng.choice([3, 6, 12, 24, 48, RULES])))
        rules = mixed_rules(rng, n, count)
    sheets = rng.choice([1, 1, 2, 2, 3, 4, 8, SHEETS])
    return spread(rng, n, rules[:RULES], sheets if rules or rng.random() < 0.5 else 0)


def damaged(rng):
    data = bytearray(sound(rng))
    kind = rng.randrange(16)
    if kind == 0:
        return bytes(data[:rng.randrange(len(data) + 1)])
    if kind == 1:
        return bytes(data) + rng.randbytes(rng.choice([1, 2, 6, 7, 600]))
    if kind == 2:
        data[0] = rng.randrange(256)
    elif kind == 3:
        data[1] = rng.choice([0, 1, 15, 16, 17, 255])
    elif kind == 4:
        data[2] = rng.choice([0, 1, 31, 32, 33, 255])
    elif kind == 5 and len(data) > 4:
        data[4] = (data[4] + rng.choice([1, 5, 6, 7, 250])) % 256
    elif kind == 6 and len(data) > 4:
        data[3] = rng.choice([1, 2, 5, 6, 7, 255])
    elif kind == 7:
        return rng.randbytes(rng.choice([0, 1, 2, 3, 4, 5, 6, 20, 2047, 2048, 2049, 5000]))
    elif kind == 8:
        return bytes([1, rng.randint(1, 16), rng.randint(0, 33)]) + rng.randbytes(rng.randrange(40))
    elif kind == 9:  # about 256 rules, and more
        n, count = rng.randint(1, 4), rng.choice([255, 256, 257, 260, 330, 340, 341, 350])
        return spread(rng, n, mixed_rules(rng, n, count), rng.choice([1, 2, 31, 32, 33]))
    elif kind == 10:  # longer than what is read
        return bytes(data) + bytes(rng.choice([2045, 2046, 2047, 2048, 2049]) - len(data)) + rng.randbytes(rng.randrange(3))
    elif kind == 11 and len(data) > 10:  # a head, a sign or a set that is no good, somewhere in a rule
        at = 5 + 6 * rng.randrange((len(data) - 5) // 6)
        data[at] = rng.choice([data[1], data[1] - 1, 15, 16, 255])
        data[at + 1] = rng.choice([0, 1, 1, 2, 255])
    elif kind == 12 and len(data) > 10:
        at = 5 + 6 * rng.randrange((len(data) - 5) // 6) + rng.choice([2, 3, 4, 5])
        data[at] = rng.randrange(256)
    elif kind == 13 and len(data) > 10:  # two faults, and the first is to be named
        return bytes(data[:rng.randrange(5, len(data))]) if rng.random() < 0.3 else bytes(flip(rng, flip(rng, data)))
    else:
        return bytes(flip(rng, data))
    return bytes(data)


def flip(rng, data):
    data = bytearray(data)
    at = rng.randrange(len(data))
    data[at] ^= 1 << rng.randrange(8)
    return data


def light(data):
    """Whether the plain program is soon done with it, should it be accepted."""
    return len(data) < 3 or data[1] > 16 or (min(len(data), 1603) // 6) ** 2 << data[1] <= 8 * WORK or len(data) < 400


def random_files(seed, count):
    rng = random.Random("files " + seed)
    while count:
        data = sound(rng) if rng.random() < 0.7 else damaged(rng)
        if light(data):
            yield data
            count -= 1


if __name__ == "__main__":
    if len(sys.argv) == 4 and sys.argv[1] == "--random":
        for data in random_files(sys.argv[2], int(sys.argv[3])):
            sys.stdout.buffer.write(len(data).to_bytes(4, "big") + data)
    elif len(sys.argv) == 2:
        named(sys.argv[1])
    else:
        sys.exit(__doc__)
