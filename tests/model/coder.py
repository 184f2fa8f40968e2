"""From the hoisted tree to text 7, the orders with open addresses, and from there to text 8 and the words of the object."""
from model import orders as o
from model.room import block_header, block_need, need, statement_need
from model.scope import (ARRAY_FORMALS, ARRAYS, LABEL, LABEL_FORMAL, NAME_FORMALS, PROC_FORMALS, PROCEDURES, STRING_FORMAL,
                         SWITCH, SWITCH_FORMAL, VALUE_FORMALS, VARIABLES)
from model.tree import (ArrayDecl, Assign, Binary, Block, CallStatement, Compound, Conditional, For, Goto, Ident, If, Index,
                        Logical, Number, Paren, ProcDecl, String, SwitchDecl, Unary)

WORD, MARK, LABELLED, LABEL_WORD, OPEN_ROOM, NEED, LAST = range(120, 127)


class Label:
    """A label that is none of the program's; numbered when text 7 first has it."""
    __slots__ = ("number",)

    def __init__(self):
        self.number = None


def string_words(data):
    """The words of a string: the number of bytes, then the bytes, five per word."""
    out = [len(data)]
    for i in range(0, len(data), 5):
        out.append(int.from_bytes(data[i:i + 5].ljust(5, b"\0"), "big"))
    return out


def pack(kinds):
    """Ten kinds to a word, the first in the highest four bits."""
    out = []
    for i in range(0, len(kinds), 10):
        word = 0
        for k in kinds[i:i + 10] + [0] * (10 - len(kinds[i:i + 10])):
            word = word * 16 + k
        out.append(word)
    return out


def formal_kind(kind):
    """The kind of a formal as a word of kinds has it."""
    return {11: 1, 12: 2, 13: 3, 14: 4, 17: 5, 15: 6, 16: 7, 18: 8, 19: 9,
            20: 10, 21: 11, 22: 12}[kind]


def actual_kind(a):
    """The kind of an actual of a call of a formal procedure."""
    if isinstance(a, String):
        return 9
    if isinstance(a, Ident):
        k = a.entity.kind
        if k in ARRAYS or k in ARRAY_FORMALS:
            return 6 if k in (3, 15) else 7
        if k in (SWITCH, SWITCH_FORMAL):
            return 8
        if k == STRING_FORMAL:
            return 9
        if k in PROCEDURES:
            return 10 + k - 7
        if k in PROC_FORMALS:
            return 10 + k - 20
    return {"integer": 3, "boolean": 4, "label": 5}[a.type]


class Coder:
    def __init__(self, program):
        self.out = []
        self.labels = 0
        self.count = 0                 # words so far
        self.level = 1                 # of the current activation, 0: evaluation
        start = program.statement.start
        self.room(o.START, 1, 3, start.line)
        self.statement(program.statement, 3)
        self.order(o.STOP, 0, 0, start.line)
        self.need(statement_need(program.statement))
        self.out.append((LAST, self.count, self.out[-1][2]))

    # symbols of text 7

    def order(self, op, level, address, line):
        assert 0 <= address < 1 << 24 and 0 <= level < 256
        self.out.append((128 + op, (level << 24) + address, line))
        self.count += 1

    def number_of(self, label):
        if label.__class__ is int:
            return label
        if label.number is None:
            label.number = (1 << 23) + self.labels
            self.labels += 1
        return label.number

    def jump(self, op, level, label, line):
        """An order whose address is a label number."""
        self.out.append((LABELLED, (op << 32) + (level << 24) + self.number_of(label), line))
        self.count += 1

    def word(self, word, line):
        self.out.append((WORD, word, line))
        self.count += 1

    def label_word(self, label, line):
        self.out.append((LABEL_WORD, self.number_of(label), line))
        self.count += 1

    def mark(self, label):
        self.out.append((MARK, self.number_of(label), self.out[-1][2]))

    def room(self, op, level, room, line):
        self.out.append((OPEN_ROOM, (op << 32) + (level << 24) + room, line))
        self.count += 1

    def need(self, n):
        self.out.append((NEED, n, self.out[-1][2]))

    # E, A, G

    def E(self, e, w):
        if isinstance(e, Binary):
            line = e.op.line
            self.E(e.left, w)
            self.order(o.KEEP, 0, w, line)
            self.E(e.right, w + 1)
            tag = e.op.tag
            self.order(tag if tag <= 14 else tag + 1, 0, w, line)
        elif isinstance(e, Ident):
            entity = e.entity
            k = entity.kind
            if k in VARIABLES or k in VALUE_FORMALS:
                self.order(o.TAKE, entity.level, entity.address, e.sym.line)
            elif k in NAME_FORMALS:
                self.order(o.VALUE, entity.level, entity.address, e.sym.line)
            else:
                self.call(e, [], w)
        elif isinstance(e, Logical):
            self.order(o.SHORT, 0, 1 if e.sym.tag == 26 else 0, e.sym.line)
        elif isinstance(e, Number):
            if e.sym.value < 1 << 24:
                self.order(o.SHORT, 0, e.sym.value, e.sym.line)
            else:
                self.order(o.LONG, 0, 0, e.sym.line)
                self.word(e.sym.value, e.sym.line)
        elif isinstance(e, Index):
            self.A(e, w)
            self.order(o.FETCH, 0, 0, e.first.line)
        elif isinstance(e, Paren):
            self.E(e.inner, w)
        elif isinstance(e, Unary):
            self.E(e.inner, w)
            if e.op.tag != 60:
                self.order(o.NOT if e.op.tag == 21 else o.NEG, 0, 0, e.op.line)
        elif isinstance(e, Conditional):
            self.conditional(e, w, self.E)
        else:
            self.call(e.ident, e.parts, w)

    def conditional(self, e, w, branch):
        line = e.if_.line
        x, y = Label(), Label()
        self.E(e.test, w)
        self.jump(o.FALSE, 0, x, line)
        branch(e.yes, w)
        self.jump(o.JUMP, 0, y, line)
        self.mark(x)
        branch(e.no, w)
        self.mark(y)

    def A(self, e, w):
        line = e.first.line
        if isinstance(e, Ident):
            self.address_of(e.entity, line)
            return
        entity = e.ident.entity
        op = o.ADDR if entity.kind in ARRAYS else o.TAKE
        self.order(op, entity.level, entity.address, line)
        self.order(o.KEEP, 0, w, line)
        for i, part in enumerate(e.parts):
            self.E(part, w + i + 1)
            self.order(o.KEEP, 0, w + i + 1, line)
        self.order(o.INDEX, len(e.parts), w, line)

    def address_of(self, entity, line):
        if entity.kind in NAME_FORMALS:
            self.order(o.PLACE, entity.level, entity.address, line)
        elif entity.kind in PROCEDURES:              # a function value
            self.order(o.ADDR, entity.level + 1, 5, line)
        else:
            self.order(o.ADDR, entity.level, entity.address, line)

    def value_of(self, entity, line):
        op = o.VALUE if entity.kind in NAME_FORMALS else o.TAKE
        self.order(op, entity.level, entity.address, line)

    def G(self, e, w):
        if isinstance(e, Ident):
            entity = e.entity
            if entity.kind == LABEL:
                self.jump(o.LAB, entity.level, entity.address, e.sym.line)
            else:
                self.order(o.NAMEL, entity.level, entity.address, e.sym.line)
        elif isinstance(e, Index):
            entity = e.ident.entity
            self.E(e.parts[0], w)
            if entity.kind == SWITCH:
                self.jump(o.SWITCH, entity.level, entity.address, e.first.line)
            else:
                self.order(o.SWFORM, entity.level, entity.address, e.first.line)
        elif isinstance(e, Paren):
            self.G(e.inner, w)
        else:
            self.conditional(e, w, self.G)

    # calls

    def call(self, ident, parts, w):
        entity = ident.entity
        k = entity.kind
        line = ident.sym.line
        if k >= 31:
            if parts:
                if k == 32:
                    self.string(parts[0])
                else:
                    self.E(parts[0], w)
            self.order(o.LIB, 0, k - 30, line)
        elif k in PROC_FORMALS:
            if parts:
                self.free_call(entity, parts, w, line)
            else:
                self.order(o.FORMAL, entity.level, entity.address, line)
        else:
            for i, (formal, a) in enumerate(zip(entity.formals, parts)):
                self.actual(formal.kind, a, w + 2 * i)
            self.order(o.SHORT, 0, w, line)
            self.jump(o.CALL, entity.level, entity.address, line)

    def free_call(self, entity, parts, w, line):
        """A call of a formal procedure with actuals."""
        level, address = entity.level, entity.address
        kinds = [actual_kind(a) for a in parts]
        self.order(o.AGREE, level, address, line)
        self.word(len(parts), line)
        for word in pack(kinds):
            self.word(word, line)
        for i, (kind, a) in enumerate(zip(kinds, parts)):
            self.actual({3: 13, 4: 14, 5: 17, 6: 15, 7: 16, 8: 18, 9: 19,
                         10: 20, 11: 21, 12: 22}[kind], a, w + 2 * i)
        for i, kind in enumerate(kinds):
            if kind in (3, 4):
                v = w + 2 * i
                x = Label()
                self.order(o.SHORT, 0, i + 1, line)
                self.order(o.BYVAL, level, address, line)
                self.jump(o.FALSE, 0, x, line)
                self.order(o.VALUE, self.level, v, line)
                self.order(o.KEEP, 0, v, line)
                self.mark(x)
        self.order(o.SHORT, 0, w, line)
        self.order(o.CALLF, level, address, line)

    def actual(self, formal, a, v):
        """An actual for a formal of that kind at v."""
        line = a.first.line
        if formal in VALUE_FORMALS:
            self.E(a, v)
            self.order(o.KEEP, 0, v, line)
        elif formal in NAME_FORMALS:
            self.by_name(a, v)
        elif formal == LABEL_FORMAL:
            self.thunk(2, a, v, lambda: (self.G(a, 5), self.order(o.BACK, 0, 0, line)))
        elif formal in ARRAY_FORMALS:
            entity = a.entity
            op = o.ADDR if entity.kind in ARRAYS else o.TAKE
            self.order(op, entity.level, entity.address, line)
            self.order(o.KEEP, 0, v, line)
        elif formal == STRING_FORMAL:
            self.string(a)
            self.order(o.KEEP, 0, v, line)
        else:
            self.entity_actual(a.entity, v, line)

    def entity_actual(self, entity, v, line):
        """A switch or procedure as an actual."""
        k = entity.kind
        if k in PROC_FORMALS or k == SWITCH_FORMAL:
            self.order(o.TAKE, entity.level, entity.address, line)
            self.order(o.KEEP, 0, v, line)
            self.order(o.TAKE, entity.level, entity.address + 1, line)
            self.order(o.KEEP, 0, v + 1, line)
            return
        if k in PROCEDURES and entity.count:
            x, kinds = Label(), Label()
            self.jump(o.JUMP, 0, x, line)
            self.mark(kinds)
            self.jump(o.KINDS, entity.count, entity.address, line)
            for word in pack([formal_kind(f.kind) for f in entity.formals]):
                self.word(word, line)
            self.mark(x)
            self.jump(o.SHORT, 0, kinds, line)
        else:
            self.jump(o.SHORT, 0, entity.address, line)
        self.order(o.KEEP, 0, v, line)
        self.order(o.BASE, entity.level, 0, line)
        self.order(o.KEEP, 0, v + 1, line)

    def by_name(self, a, v):
        line = a.first.line

        def address():
            self.A(a, 5)
            self.order(o.GIVE, 0, 0, line)

        def pass_on():
            self.order(o.PASS, a.entity.level, a.entity.address, line)
            self.order(o.BACK, 0, 0, line)

        def value():
            self.E(a, 5)
            self.order(o.BACK, 0, 0, line)

        if isinstance(a, Index):
            self.thunk(1, a, v, address)
        elif isinstance(a, Ident) and (a.entity.kind in VARIABLES
                                       or a.entity.kind in VALUE_FORMALS):
            self.thunk(1, a, v, address)
        elif isinstance(a, Ident) and a.entity.kind in NAME_FORMALS:
            self.thunk(3, a, v, pass_on)
        else:
            self.thunk(0, a, v, value)

    def thunk(self, kind, a, v, body):
        line = a.first.line
        x, t = Label(), Label()
        self.jump(o.JUMP, 0, x, line)
        self.mark(t)
        self.evaluation(kind, a, body, line)
        self.mark(x)
        self.jump(o.SHORT, 0, t, line)
        self.order(o.KEEP, 0, v, line)
        self.order(o.BASE, 0, 0, line)
        self.order(o.KEEP, 0, v + 1, line)

    def evaluation(self, kind, e, body, line):
        self.room(o.THUNK, kind, 5, line)
        level, self.level = self.level, 0
        body()
        self.level = level
        self.need(need(e))

    def string(self, a):
        """The address of a string, or TAKE of a string formal."""
        line = a.first.line
        if isinstance(a, Ident):
            self.order(o.TAKE, a.entity.level, a.entity.address, line)
            return
        x, s = Label(), Label()
        self.jump(o.JUMP, 0, x, line)
        self.mark(s)
        for word in string_words(a.bytes):
            self.word(word, line)
        self.mark(x)
        self.jump(o.SHORT, 0, s, line)

    # statements

    def statement(self, s, w):
        for label in s.labels:
            self.mark(label.entity.address)
        if isinstance(s, Compound):
            for t in s.statements:
                self.statement(t, w)
        elif isinstance(s, Block):
            self.block(s)
        elif isinstance(s, Assign):
            line = s.start.line
            for i, (left, _) in enumerate(s.lefts):
                self.A(left, w + i)
                self.order(o.KEEP, 0, w + i, line)
            n = len(s.lefts)
            self.E(s.right, w + n)
            for i in range(n):
                self.order(o.PUT, 0, w + i, line)
        elif isinstance(s, Goto):
            self.G(s.target, w)
            self.order(o.GO, 0, 0, s.start.line)
        elif isinstance(s, CallStatement):
            self.E(s.call, w)
        elif isinstance(s, If):
            line = s.start.line
            x = Label()
            self.E(s.test, w)
            self.jump(o.FALSE, 0, x, line)
            self.statement(s.yes, w)
            if s.no is None:
                self.mark(x)
            else:
                y = Label()
                self.jump(o.JUMP, 0, y, line)
                self.mark(x)
                self.statement(s.no, w)
                self.mark(y)
        elif isinstance(s, For):
            self.for_statement(s, w)

    def for_statement(self, f, w):
        line = f.start.line
        s, end = Label(), Label()
        for element in f.elements:
            self.element(element, f.variable, s, w)
        self.jump(o.JUMP, 0, end, line)
        self.mark(s)
        self.statement(f.body, w + 1)
        self.order(o.TURN, 0, w, line)
        self.mark(end)

    def element(self, element, variable, s, w):
        line = element.first.line
        v = variable.entity
        v_line = variable.sym.line

        def set_begin():
            self.address_of(v, v_line)
            self.order(o.KEEP, 0, w + 1, line)

        def set_(e):
            set_begin()
            self.E(e, w + 2)
            self.order(o.PUT, 0, w + 1, line)

        def do(label):
            self.jump(o.SHORT, 0, label, line)
            self.order(o.KEEP, 0, w, line)
            self.jump(o.JUMP, 0, s, line)

        n = Label()
        if element.kind == "expr":
            set_(element.parts[0])
            do(n)
            self.mark(n)
        elif element.kind == "step":
            a, b, c = element.parts
            m, t = Label(), Label()
            set_(a)
            self.jump(o.JUMP, 0, t, line)
            self.mark(m)
            set_begin()                                  # SET(V + B)
            self.value_of(v, v_line)
            self.order(o.KEEP, 0, w + 2, line)
            self.E(b, w + 3)
            self.order(o.ADD, 0, w + 2, line)
            self.order(o.PUT, 0, w + 1, line)
            self.mark(t)
            self.value_of(v, v_line)
            self.order(o.KEEP, 0, w + 1, line)
            self.E(c, w + 2)
            self.order(o.SUB, 0, w + 1, line)
            self.order(o.KEEP, 0, w + 1, line)
            self.E(b, w + 2)
            self.order(o.TEST, 0, w + 1, line)
            self.jump(o.FALSE, 0, n, line)
            do(m)
            self.mark(n)
        else:
            e, f = element.parts
            m = Label()
            self.mark(m)
            set_(e)
            self.E(f, w + 1)
            self.jump(o.FALSE, 0, n, line)
            do(m)
            self.mark(n)

    def block(self, b):
        line = b.begin.line
        header = block_header(b)
        level, self.level = self.level, b.level
        self.room(o.BLOCK, b.level, header, line)
        for d in b.decls:
            if isinstance(d, ArrayDecl):
                for segment in d.segments:
                    self.segment(segment, header)
            elif isinstance(d, SwitchDecl):
                self.switch(d)
            elif isinstance(d, ProcDecl):
                self.procedure(d)
        for s in b.statements:
            self.statement(s, header)
        self.order(o.LEAVE, 0, 0, line)
        self.need(block_need(b))
        self.level = level

    def segment(self, s, w):
        line = s.first.line
        for i, e in enumerate(s.bounds):
            self.E(e, w + i)
            self.order(o.KEEP, 0, w + i, line)
        d = len(s.bounds) // 2
        for declared in s.idents:
            self.order(o.SHORT, 0, w, line)
            self.order(o.ARRAY, d, declared.entity.address, line)

    def procedure(self, d):
        line = d.first.line
        f = 1 if d.type_ is not None else 0
        n = len(d.formals)
        x = Label()
        self.jump(o.JUMP, 0, x, line)
        self.mark(d.entity.address)
        self.room(o.PROC, d.level, 5 + 2 * n + f, line)
        self.word(2 * n + f, line)
        level, self.level = self.level, d.level
        self.statement(d.body, 5 + 2 * n + f)
        self.level = level
        self.order(o.RETURN, 0, f, line)
        self.need(statement_need(d.body))
        self.mark(x)

    def switch(self, d):
        line = d.first.line
        x = Label()
        self.jump(o.JUMP, 0, x, line)
        self.mark(d.ident.entity.address)
        self.word(len(d.elements), line)
        labels = [Label() for _ in d.elements]
        for label in labels:
            self.label_word(label, line)
        for label, e in zip(labels, d.elements):
            self.mark(label)

            def body(e=e):
                self.G(e, 5)
                self.order(o.BACK, 0, 0, e.first.line)

            self.evaluation(2, e, body, e.first.line)
        self.mark(x)


def text7(program):
    return Coder(program).out


def addresses(text):
    """Label number -> address, by the marks of text 7."""
    at, out = 0, {}
    for tag, value, _ in text:
        if tag == MARK:
            assert value not in out, ("label marked twice", value)
            out[value] = at
        elif tag not in (NEED, LAST):
            at += 1
    return out


def rooms(text):
    """Index in text 7 of each tag 124 -> its room."""
    out, open_ = {}, []
    for i, (tag, value, _) in enumerate(text):
        if tag == OPEN_ROOM:
            open_.append(i)
        elif tag == NEED:
            j = open_.pop()
            out[j] = (text[j][1] & 0xFFFFFF) + value
    assert not open_
    return out


def text8(text):
    """Text 7 where rooms and all addresses that lie ahead are known."""
    place, room = addresses(text), rooms(text)
    later = set()                      # labels with a use after this point
    keep = [False] * len(text)
    for i in range(len(text) - 1, -1, -1):
        tag, value, _ = text[i]
        if tag == LABELLED:
            later.add(value & 0xFFFFFF)
        elif tag == LABEL_WORD:
            later.add(value)
        elif tag == MARK:
            keep[i] = value in later
    out, seen = [], set()
    for i, (tag, value, line) in enumerate(text):
        if tag == MARK:
            seen.add(value)
            if keep[i]:
                out.append((tag, value, line))
        elif tag == LABELLED:
            number = value & 0xFFFFFF
            if number not in seen:
                head = value >> 24
                out.append((128 + (head >> 8), ((head & 255) << 24) + place[number], line))
            else:
                out.append((tag, value, line))
        elif tag == LABEL_WORD:
            if value not in seen:
                out.append((WORD, place[value], line))
            else:
                out.append((tag, value, line))
        elif tag == OPEN_ROOM:
            head = value >> 24
            out.append((128 + (head >> 8), ((head & 255) << 24) + room[i], line))
        elif tag not in (NEED, LAST):
            out.append((tag, value, line))
    return out


def words(text):
    """The object from text 7: a list of 40-bit words."""
    place, room = addresses(text), rooms(text)
    out = []
    for i, (tag, value, _) in enumerate(text):
        if tag >= 128:
            out.append(((tag - 128) << 32) + value)
        elif tag == WORD:
            out.append(value)
        elif tag == LABELLED:
            out.append((value >> 24 << 24) + place[value & 0xFFFFFF])
        elif tag == LABEL_WORD:
            out.append(place[value])
        elif tag == OPEN_ROOM:
            assert room[i] < 1 << 24
            out.append((value >> 24 << 24) + room[i])
    return out


def words_of_text8(text):
    """The object from text 8, as the last pass gives it; a check of text 8."""
    place, at = {}, 0
    for tag, value, _ in text:
        if tag == MARK:
            place[value] = at
        else:
            at += 1
    out = []
    for tag, value, _ in text:
        if tag >= 128:
            out.append(((tag - 128) << 32) + value)
        elif tag == WORD:
            out.append(value)
        elif tag == LABELLED:
            out.append((value >> 24 << 24) + place[value & 0xFFFFFF])
        elif tag == LABEL_WORD:
            out.append(place[value])
    return out


def lines_of_words(text):
    """Line of the word at each address, and its number in text 7."""
    out = []
    for i, (tag, _, line) in enumerate(text):
        if tag not in (MARK, NEED, LAST):
            out.append((line, i))
    return out
