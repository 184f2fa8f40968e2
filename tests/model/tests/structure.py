"""The fast recogniser and the builder of trees against the slow recogniser, on random spellings of the grammar and damaged ones."""
import random

from model import grammar, texts, tree
from model.structure import structure_fault

END = (8, 0, 1)

# Which tags of text 3 stand for which of text 2, and those that text 2 hasn't.
SPELLED = {60: 10, 61: 11, 62: 29, 63: 3, 64: 3, 65: 3, 66: 3}
ADDED = {67, 68, 77}

SIZES = (5, 15, 40, 80)
DAMAGED = 0.8

RULES = grammar.rules()
TERMINALS = sorted({x for bodies in RULES.values() for b in bodies for x in b
                    if isinstance(x, int)})


def costs():
    """Least number of terminals of each rule."""
    best = {}
    changed = True
    while changed:
        changed = False
        for name, bodies in RULES.items():
            for b in bodies:
                if all(isinstance(x, int) or x in best for x in b):
                    n = sum(1 if isinstance(x, int) else best[x] for x in b)
                    if n < best.get(name, 1 << 30):
                        best[name] = n
                        changed = True
    return best


COST = costs()


def cost(body):
    """Least number of terminals of a body."""
    return sum(1 if isinstance(x, int) else COST[x] for x in body)


def spelling(chance, size):
    """A random spelling of `program`, of about so many symbols."""
    out, stack = [], ["program"]
    while stack:
        x = stack.pop()
        if isinstance(x, int):
            out.append(x)
            continue
        bodies = RULES[x]
        if len(out) + len(stack) > size:
            least = min(map(cost, bodies))
            bodies = [b for b in bodies if cost(b) == least]
        stack.extend(reversed(chance.choice(bodies)))
    return out


def mutate(chance, tags):
    """The same symbols but for a few."""
    tags = list(tags)
    for _ in range(chance.choice((1, 1, 1, 2, 3))):
        at = chance.randrange(len(tags) + 1)
        what = chance.randrange(5)
        if what == 0 and tags:
            del tags[min(at, len(tags) - 1)]
        elif what == 1:
            tags.insert(at, chance.choice(TERMINALS))
        elif what == 2 and tags:
            tags[min(at, len(tags) - 1)] = chance.choice(TERMINALS)
        elif what == 3 and len(tags) > 1:
            at = min(at, len(tags) - 2)
            tags[at], tags[at + 1] = tags[at + 1], tags[at]
        else:
            tags = tags[:at]
    return tags


def wrong(tags):
    """Lines that tell where the recognisers differ, or where the tree doesn't give its symbols back."""
    text2 = [(tag, 0, 1) for tag in tags] + [END]
    wanted, got = grammar.earley(tags, RULES), structure_fault(text2)
    if wanted != got:
        return [f"  wanted {wanted}, got {got}: {tags}"]
    if wanted is not None:
        return []
    program = tree.build(text2)
    program.written = program
    back = [SPELLED.get(tag, tag) for tag, _, _ in texts.spell(program, 3) if tag not in ADDED]
    return [] if back == tags + [END[0]] else [f"  the tree gives {back} for {tags}"]


def checks(seeds):
    """(name, lines that tell what is wrong) of each seed."""
    for seed in seeds:
        chance = random.Random(seed)
        tags = spelling(chance, chance.choice(SIZES))
        yield f"structure, seed {seed}", wrong(mutate(chance, tags) if chance.random() < DAMAGED else tags)
