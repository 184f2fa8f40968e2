"""The objects that tests/objects and tests/addresses run: of programs of the model's generator, and random ones. No program is run here,
but the model's runs are told as tool_object_run tells its own."""
import random

from model import orders
from model.answer import answer
from model.flat import Flat
from shared import LARGEST_SIZE, generated

LARGEST = 1 << 40
SIGNED = 1 << 39
ORDERS = 55

# The kinds of choices, and the size of programs of which words are changed.
KINDS = ("programs", "random")
LARGEST_TO_CHANGE = 6


def object_of(seed, largest):
    """The words and the data of a program, or None where it has errors."""
    run = answer(["run", "steps=0"], generated(seed, largest=largest), texts=False).run
    return None if run is None else (list(run.words), bytes(run.data))


def an_order(chance, most):
    """An order whose addresses are mostly small, so that much of what it names is there."""
    number = chance.randint(1, ORDERS)
    level = chance.choice([0, 0, 1, 1, 2, 3, chance.randint(0, 255)]) if orders.HAS_LEVEL[number] else 0
    address = chance.choice([chance.randint(0, 12), chance.randint(0, most), chance.randint(0, (1 << 24) - 1)])
    return orders.code(number, level, address if orders.HAS_ADDRESS[number] else 0)


def hand_made(chance):
    """An object that begins with START, and goes on as it comes."""
    count = chance.randint(1, 60)
    words = [orders.code(1, chance.randint(0, 2), chance.randint(2, 9))]
    for _ in range(count):
        if chance.random() < 0.9:
            words.append(an_order(chance, count))
        else:
            words.append(chance.choice([0, chance.randint(0, 600), chance.randrange(LARGEST)]))
    return words, bytes(chance.randint(0, 255) for _ in range(chance.randint(0, 6)))


def changed(chance, words):
    """The same words but for a few."""
    words = list(words)
    for _ in range(chance.randint(1, 5)):
        at = chance.randrange(len(words))
        words[at] = chance.choice([an_order(chance, len(words)), words[at] ^ (1 << chance.randint(0, 39)),
                                   chance.randrange(LARGEST)])
    return words


def chosen(kind, seed):
    """Words, start, data, places, steps and stack of a run, or None where the seed gives none."""
    chance = random.Random(-seed - 1)
    start = 0
    if kind == "random" and chance.random() < 0.6:
        words, data = hand_made(chance)
        start = chance.choice([0, 0, 0, chance.randrange(len(words))])
    else:
        found = object_of(seed, LARGEST_SIZE if kind == "programs" else LARGEST_TO_CHANGE)
        if found is None:
            return None
        words, data = found
        if kind == "random":
            words = changed(chance, words)
    stack = chance.choice([20, 60, 200, 1000, 20000])
    places = chance.randint(1, 64) if chance.random() < 0.5 else chance.randint(1, 4)
    return words, start, data, places, chance.randint(0, 3000), stack


def numbers_of(job):
    words, start, data, places, steps, stack = job
    signed = [word - LARGEST if word >= SIGNED else word for word in words]
    return " ".join(str(number) for number in [len(words), start, places, steps, stack, len(data)] + signed + list(data))


def run_of(job):
    """The model's run, with the addresses of the words of the object that it read."""
    words, start, data, places, steps, stack = job
    return Flat(words, data, steps, stack, start, places, keep_refs=True, keep_misses=True).run()


def lines_of(run, job):
    """The lines that tool_object_run has to print of the model's run."""
    data = job[2]
    ending = {"alarm": "alarm %s" % run.alarm, "spoilt": "spoilt %d %d" % (run.spoilt or (0, 0))}.get(run.ending, run.ending)
    return [
        "ending " + ending,
        "steps %d" % run.steps,
        "words %d" % run.greatest,
        "stop %d" % run.place,
        "misses" + "".join(" %d" % number for number in run.recent.table()),
        "left %d" % (len(data) - run.taken),
        "printed" + "".join(" %d" % byte for byte in run.out),
        "tracks" + "".join(" %d" % track for track in run.recent.missed),
        "frames" + "".join(" %s %d %d" % (shape.capitalize(), size, back) for shape, size, back in run.activations()),
        "end"]
