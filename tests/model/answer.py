"""What the program has to answer: `answer(words, tape)`, from the words of the command line and the tape to the status and the
printed bytes.

It compiles the tape, runs the object and writes the tails that the words ask for. It knows no files and no devices that fail."""
import gc

from model import command as commands
from model import compiler, lexer, tracks
from model.coder import lines_of_words
from model.deep import run_deep
from model.flat import Flat
from model.journal import of_call

DONE, ERRORS, WORDS, ALARM, STEPS = range(5)
STATUSES = {"ended": DONE, "alarm": ALARM, "steps": STEPS}

# A post-mortem shows at most so many activations.
SHOWN_ACTIVATIONS = 64


class Answer:
    """The status, the printed bytes, and what else can be compared: `command`, `compiled` (its faults and texts), `run` (the flat
    run) and `mortem` (the places in text 7 of the symbols whose lines a post-mortem shows). What a call didn't come to is
    None."""

    def __init__(self, status=None, out=b"", command=None, compiled=None):
        self.status, self.out, self.command, self.compiled = status, out, command, compiled
        self.run, self.mortem = None, []

    def journal(self):
        """What the drum is asked for, in the parts that journal.py tells."""
        return of_call(self)


def answer(words, tape, texts=True):
    """The answer to a call. With `texts` the compiler's texts 3 to 6 and 8 are made too, which only comparisons want."""
    return run_deep(without_collection, list(words), bytes(tape), texts)


def without_collection(*arguments):
    """Trees are large and live as long as the call, so looking for garbage only takes time."""
    gc.disable()
    try:
        return answer_here(*arguments)
    finally:
        gc.enable()


def answer_here(words, tape, texts):
    command, wrong = commands.read_words(words)
    if command is None:
        return Answer(WORDS, tail("word %d" % wrong))
    text, data = program_and_data(command, tape)
    compiled = compiler.too_long() if text is None else compiler.front(text, texts)
    if compiled.errors:
        return Answer(ERRORS, compiled.print_errors(), command, compiled)
    found = Answer(DONE, b"", command, compiled)
    if not command.check:
        compiler.back(compiled, texts)
        found.run = Flat(compiled.words, data, command.steps, command.stack, places=command.places, keep_misses=True,
                         keep_changes=command.best).run()
        found.status = STATUSES[found.run.ending]
        found.out = bytes(found.run.out) + tails(found)
    return found


def program_and_data(command, tape):
    """The bytes of the program, or None where it is too long, and those of its data."""
    if command.sample is not None:
        return commands.sample(command.sample), tape
    text, taken = lexer.program_of(tape)
    return text, tape[taken:]


def tail(text):
    return b"\n*** " + text.encode() + b"\n"


def tails(found):
    """What is printed behind the program's own bytes."""
    command, run = found.command, found.run
    out = b""
    if found.status != DONE:
        out += tail("alarm " + run.alarm if found.status == ALARM else "steps")
    if command.report:
        out += tail("steps %d transfers %d words %d" % (run.steps, run.recent.misses(command.places), run.greatest))
    if command.table:
        out += tail("table" + "".join(" %d" % misses for misses in run.recent.table()))
    if command.best:
        out += best(run, command.places)
    if command.mortem and found.status != DONE:
        out += mortem(found)
    return out


def best(run, places):
    """The cheapest plan of transfers."""
    if run.recent.change_count > tracks.MOST_CHANGES:
        return tail("best too long")
    plan = tracks.farthest(run.recent.changes, places)
    return tail("best %d" % len(plan) + "".join(" %d/%d" % pair for pair in plan))


def mortem(found):
    """The line of the order that stopped, and the activations that were left."""
    lines = lines_of_words(found.compiled.text[7])

    def line(address):
        number, symbol = lines[address]
        found.mortem.append(symbol)
        return number

    out = tail("mortem line %d" % line(found.run.place))
    live = found.run.activations()
    for shape, words, back in live[:SHOWN_ACTIVATIONS]:
        behind = "" if shape in ("program", "block") else " line %d" % line(back - 1)
        out += tail("%s%s words %d" % (shape, behind, words))
    if len(live) > SHOWN_ACTIVATIONS:
        out += tail("and %d more" % (len(live) - SHOWN_ACTIVATIONS))
    return out
