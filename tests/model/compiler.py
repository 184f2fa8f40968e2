"""The whole way from the text of a program to its faults, or to texts 1 to 8 and the object."""
from model import coder, lexer, texts
from model.kinds import type_faults
from model.scope import allocate, hoist, resolve
from model.structure import structure_fault
from model.tree import build


class Compiled:
    """What the compiler makes of a program: `errors`, a list of (line, text), which is empty where there are none; `list_number`,
    that of the list of faults; `program`, the hoisted tree; `text`, its texts by their numbers; `words`, the object."""

    def __init__(self):
        self.errors = []
        self.list_number = None
        self.program = None
        self.text = {}
        self.words = None
        self.bytes = 0

    def print_errors(self):
        """The lines that are printed for the faults."""
        out = b""
        for line, text in self.errors:
            if line is None:
                out += text.encode() + b"\n"
            else:
                out += b"line %d %s\n" % (line, text.encode())
        return out


def too_long():
    """What is made of a program that is too long."""
    compiled = Compiled()
    compiled.list_number = 0
    compiled.errors = [(None, "program too long")]
    return compiled


def front(text, texts_too=True):
    """Passes 1 to 6 on the bytes of a program text."""
    c = Compiled()
    c.bytes = len(text)

    def stop(number, faults):
        c.list_number = number
        c.errors = [(line, what) for _, line, what in faults]
        return c

    text1, faults = lexer.symbols(text)
    if faults:
        return stop(1, faults)
    c.text[1] = text1
    text2, faults, c.names = lexer.assembled(text1)
    if faults:
        return stop(2, faults)
    c.text[2] = text2
    at = structure_fault(text2)
    if at is not None:
        return stop(3, [(at, text2[at][2], "structure")])
    program = build(text2)
    faults = resolve(program)
    if faults:
        return stop(4, faults)
    faults = type_faults(program)
    if faults:
        return stop(5, faults)
    c.program = hoist(program)
    allocate(c.program)
    if texts_too:
        c.program.written = program
        for k in (3, 4, 5, 6):
            c.text[k] = texts.spell(c.program, k)
    return c


def back(c, texts_too=True):
    """Passes 7 to 9 on what front gave without errors."""
    c.text[7] = coder.text7(c.program)
    c.words = coder.words(c.text[7])
    if texts_too:
        c.text[8] = coder.text8(c.text[7])
    return c
