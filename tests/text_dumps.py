"""Runs the program tool_text_dump on texts of the model, for tests/texts and tests/type_faults. It compares nothing."""
import shlex
import subprocess

# So many symbols are handed over at once.
BATCH = 40000

# The names of faults there that aren't the words of the fault.
NAMES = {"string": "Unclosed", "for": "ForElement"}


def symbols(text):
    """A line for each symbol of a text."""
    return ["%d %d %d" % tuple(symbol) for symbol in text]


def fault(line, what):
    """A fault as tool_text_dump tells it, without its position."""
    return "fault %d %s" % (line, NAMES.get(what) or "".join(word.capitalize() for word in what.split()))


def given(size, text):
    """The input for a program of so many bytes: a text, or the program itself."""
    if isinstance(text, bytes):
        return ["%d " % size + " ".join(map(str, text))]
    return ["%d %d" % (size, len(text))] + symbols(text)


def batches(texts):
    """The (size, text) in groups of about as many symbols as one run is to be handed."""
    group, count = [], 0
    for size, text in texts:
        if group and count + len(text) > BATCH:
            yield group
            group, count = [], 0
        group.append((size, text))
        count += len(text)
    if group:
        yield group


def without_positions(lines):
    """Of an answer with faults the faults alone, without the positions, which the model has not; they must rise."""
    faults = [line.split() for line in lines if line.startswith("fault ")]
    positions = [int(fault[1]) for fault in faults]
    if positions != sorted(set(positions)):
        return ["positions that don't rise"]
    return ["fault %s %s" % (line, kind) for _, _, line, kind in faults] or lines


def answers(command, passes, texts):
    """The lines that tool_text_dump prints for each (size, text); for those that it didn't answer what it wrote on standard error."""
    found = []
    for group in batches(texts):
        lines = "\n".join(line for size, text in group for line in given(size, text)) + "\n"
        done = subprocess.run(shlex.split(command) + passes, input=lines.encode(), capture_output=True)
        parts = [part.splitlines() for part in done.stdout.decode().split("end\n")[:-1]]
        found += [without_positions(part) for part in parts[:len(group)]]
        found += [["no answer", *done.stderr.decode().splitlines()[-3:]]] * (len(group) - len(parts))
    return found
