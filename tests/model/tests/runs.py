"""Laws of every program, on random ones: its texts and object, the flat run against the meaning of its tree, the misses, and exact room."""
import random

from model import coder, programs, texts, tracks
from model.answer import DONE, ERRORS, answer
from model.deep import run_deep
from model.flat import Flat
from model.tests.meaning import Meaning

STEPS, STACK = 2000, 4000
LEAST_STACK = 64

# So many orders at most where the misses are compared with their definition, which takes long.
FEW_ORDERS = 800
PLACES = (1, 2, 3, 8)
MOST_PLACES_BY_TRYING = 3

# How much longer than the program a text and an object can be.
TEXT, OBJECT, MORE = 24, 16, 64


def wrong_texts(compiled):
    """The tags of each text, its length, its marks, and the object from text 8."""
    for k, text in compiled.text.items():
        if not {tag for tag, _, _ in text} <= texts.TAGS[k]:
            yield f"  text {k} has tags of others"
        if len(text) > TEXT * compiled.bytes + MORE:
            yield f"  text {k} is too long"
        if k in (3, 4, 5, 6) and not nests(text):
            yield f"  the marks of text {k} don't nest"
    if len(compiled.words) > OBJECT * compiled.bytes + MORE:
        yield "  the object is too long"
    if coder.words_of_text8(compiled.text[8]) != compiled.words:
        yield "  text 8 gives another object than text 7"


def nests(text):
    """Whether each shut mark is that of the last open one."""
    opened = []
    for tag, value, _ in text:
        if tag == texts.OPEN:
            opened.append(value)
        elif tag == texts.SHUT and (not opened or opened.pop() != value):
            return False
    return not opened


def shown(run, taken):
    return bytes(run.out), run.ending, run.alarm, run.steps, run.greatest, taken


def wrong_meaning(compiled, data, steps, stack):
    """Where the flat run isn't the meaning of the tree."""
    flat = Flat(compiled.words, data, steps, stack).run()
    meaning = run_deep(Meaning, compiled.program, data, steps, stack)
    wanted, got = shown(meaning, meaning.io.taken), shown(flat, flat.taken)
    if wanted != got:
        yield f"  steps {steps}, stack {stack}: the meaning is {wanted}, the flat run {got}"


def wrong_tracks(run):
    """The misses and the plans beside their definitions."""
    references = [address // 40 for address in run.refs]
    for places in PLACES:
        if len(tracks.misses_by_definition(references, places)) != run.recent.misses(places):
            yield f"  other misses for {places} places"
        plan = tracks.farthest(run.recent.changes, places)
        if plan != tracks.farthest_by_definition(references, places):
            yield f"  another plan for {places} places"
        if places <= MOST_PLACES_BY_TRYING and len(plan) != tracks.fewest(references, places):
            yield f"  the plan for {places} places isn't the cheapest"


def wrong_room(compiled, data, run):
    """One stack word too few, or one step, and a run that ended doesn't end so."""
    if run.greatest > LEAST_STACK:
        same, fewer = (Flat(compiled.words, data, STEPS, stack).run() for stack in (run.greatest, run.greatest - 1))
        if (same.ending, bytes(same.out)) != ("ended", bytes(run.out)) or fewer.alarm != "stack":
            yield f"  {run.greatest} words aren't just those needed"
    if run.steps and Flat(compiled.words, data, run.steps - 1, STACK).run().ending != "steps":
        yield f"  {run.steps} steps aren't just those needed"


def wrong(seed):
    chance = random.Random(seed)
    tape = programs.tape_of(seed, size=chance.randint(2, 10), hazard=chance.randint(0, 3))
    found = answer(["run", f"steps={STEPS}", f"stack={STACK}", "mortem=yes"], tape)
    if found.status == ERRORS:
        return ["  a program of the generator has errors"]
    compiled, data = found.compiled, bytes(found.run.data)
    run = Flat(compiled.words, data, STEPS, STACK, keep_refs=True, keep_changes=True).run()
    lines = list(wrong_texts(compiled)) + list(wrong_meaning(compiled, data, STEPS, STACK))
    lines += wrong_meaning(compiled, data, chance.randrange(200), chance.randrange(LEAST_STACK, 500))
    if run.orders < FEW_ORDERS:
        lines += wrong_tracks(run)
    if found.status == DONE:
        lines += wrong_room(compiled, data, run)
    return lines


def checks(seeds):
    """(name, lines that tell what is wrong) of each seed."""
    for seed in seeds:
        yield f"runs, seed {seed}", wrong(seed)
