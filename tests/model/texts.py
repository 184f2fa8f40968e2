"""Texts 3 to 6 of a tree, as the passes of the compiler write them.

`spell(program, k)` gives text k as a list of (tag, value, line) in the order of the source. Text 3 wants the tree as it is
written, texts 4 to 6 the hoisted one. Text 4 is the list that reading it backward gives."""
from model.scope import own_idents
from model.tree import (ArrayDecl, Assign, Binary, Block, CallStatement, Compound, Conditional, For, Goto, Ident, If, Index,
                        Number, OwnPlace, Paren, String, SwitchDecl, TypeDecl, Unary)

OPEN, SHUT = 67, 68
(PROGRAM, BLOCK, COMPOUND, TYPE, SEGMENT, SWITCH, PROCEDURE, BODY, FOR, CONTROLLED,
 IF, ACTUAL, SUBSCRIPT, BOUND, SWITCH_ELEMENT, FOR_ELEMENT, GOTO, CONDITIONAL) = range(1, 19)
LABEL_COLON, DECLARING, FORMAL, VALUE, SPEC = 62, 63, 64, 65, 66
ENTRY, DESCRIPTION, USED, PLACE, COUNT, OPERATION, SUBSCRIBED, CALLED = range(69, 77)
OWN_NUMBER, OWN_ENTRY = 77, 78


class Writer:
    def __init__(self, k):
        self.k = k
        self.out = []

    # single symbols

    def put(self, sym):
        self.out.append((sym.tag, sym.value, sym.line))

    def mark(self, tag, number, sym):
        self.out.append((tag, number, sym.line))

    def declaring(self, declared, tag=DECLARING):
        """An identifier in a declaring place or a formal list."""
        value, entity = declared.sym.value, declared.entity
        if self.k >= 4 and entity is not None:
            value = entity.number()
        self.out.append((tag, value, declared.sym.line))
        if self.k == 3 and entity is not None and entity.own is not None:
            self.out.append((OWN_NUMBER, entity.own, declared.sym.line))

    def used(self, ident):
        """An identifier in a used place."""
        line = ident.sym.line
        if self.k <= 4:
            self.out.append((3, ident.sym.value, line))
            return
        self.description(ident.entity, line)

    def description(self, e, line):
        self.out.append((USED, e.kind, line))
        place = 0 if e.kind >= 31 else (e.level << 24) + e.address
        self.out.append((PLACE, place, line))
        if e.kind in (3, 4, 7, 8, 9):
            self.out.append((COUNT, e.count, line))

    def entries(self, entities, sym, here=None):
        """Text 4: the declared identifiers after an open mark."""
        if self.k < 4:
            return
        line = sym.line
        for e in entities:
            if e.own is not None and not (here is not None and here.level == 2):
                if self.k == 4:
                    self.out.append((ENTRY, e.name, line))
                    self.out.append((OWN_ENTRY, e.number(), line))
                continue
            self.out.append((ENTRY, e.number(), line))
            self.out.append((DESCRIPTION, e.kind, line))
            if e.kind in (3, 4):
                self.out.append((COUNT, e.count, line))
            elif e.kind in (7, 8, 9):
                for f in e.formals:
                    self.out.append((DESCRIPTION, f.kind, line))

    def listed(self, items, commas, write):
        for i, item in enumerate(items):
            if i:
                self.put(commas[i - 1])
            write(item)

    # program and statements

    def program(self, p):
        s = p.statement
        self.mark(OPEN, PROGRAM, s.first)
        self.entries(p.scope, s.first)
        self.statement(s)
        self.mark(SHUT, PROGRAM, s.last)
        owns = sum(len(own_idents(d)) for d in p.owns) if self.k == 3 else 0
        self.out.append((8, owns, p.end.line))

    def labels(self, s):
        for label in s.labels:
            self.out.append((DECLARING, label.sym.value, label.sym.line))
            self.out.append((LABEL_COLON, 0, label.colon.line))

    def statements(self, list_, semis):
        self.listed(list_, semis, self.statement)

    def statement(self, s):
        if isinstance(s, If):
            self.mark(OPEN, IF, s.first)
            self.labels(s)
            self.put(s.if_)
            self.expr(s.test)
            self.put(s.then)
            self.statement(s.yes)
            if s.no is not None:
                self.put(s.else_)
                self.statement(s.no)
            self.mark(SHUT, IF, s.last)
            return
        if isinstance(s, For):
            self.mark(OPEN, FOR, s.first)
            self.labels(s)
            self.put(s.for_)
            self.used(s.variable)
            for mark, element in zip(s.marks, s.elements):
                self.put(mark)
                self.element(element)
            self.put(s.do)
            self.mark(OPEN, CONTROLLED, s.body.first or s.body.follower)
            self.entries(s.scope, s.body.first or s.body.follower)
            self.statement(s.body)
            self.mark(SHUT, CONTROLLED, s.body.last or s.body.follower)
            self.mark(SHUT, FOR, s.last)
            return
        self.labels(s)
        if isinstance(s, Compound):
            self.mark(OPEN, COMPOUND, s.begin)
            self.put(s.begin)
            self.statements(s.statements, s.semis)
            self.put(s.end)
            self.mark(SHUT, COMPOUND, s.end)
        elif isinstance(s, Block):
            self.mark(OPEN, BLOCK, s.begin)
            self.entries(s.scope, s.begin, s)
            self.put(s.begin)
            for d, semi in zip(s.decls, s.decl_semis):
                self.declaration(d)
                self.put(semi)
            self.statements(s.statements, s.semis)
            self.put(s.end)
            self.mark(SHUT, BLOCK, s.end)
        elif isinstance(s, Assign):
            for left, becomes in s.lefts:
                if isinstance(left, Index):
                    self.index(left)
                else:
                    self.used(left)
                self.put(becomes)
            self.expr(s.right)
        elif isinstance(s, Goto):
            self.mark(OPEN, GOTO, s.goto)
            self.put(s.goto)
            self.expr(s.target)
            self.mark(SHUT, GOTO, s.target.last)
        elif isinstance(s, CallStatement):
            self.expr(s.call)

    def element(self, e):
        self.mark(OPEN, FOR_ELEMENT, e.first)
        self.expr(e.parts[0])
        for sym, part in zip(e.syms, e.parts[1:]):
            self.put(sym)
            self.expr(part)
        self.mark(SHUT, FOR_ELEMENT, e.last)

    # declarations

    def declaration(self, d):
        if isinstance(d, OwnPlace):
            if self.k == 3:
                self.declaration(d.decl)
        elif isinstance(d, TypeDecl):
            own = d.own if self.k == 3 else None
            self.mark(OPEN, TYPE, own or d.type_)
            if own:
                self.put(own)
            self.put(d.type_)
            self.listed(d.idents, d.commas, self.declaring)
            self.mark(SHUT, TYPE, d.last)
        elif isinstance(d, ArrayDecl):
            if d.own and self.k == 3:
                self.put(d.own)
            self.put(d.type_)
            self.put(d.array)
            self.listed(d.segments, d.commas, self.segment)
        elif isinstance(d, SwitchDecl):
            self.mark(OPEN, SWITCH, d.first)
            self.put(d.switch)
            self.declaring(d.ident)
            for mark, e in zip(d.marks, d.elements):
                self.put(mark)
                self.within(SWITCH_ELEMENT, e)
            self.mark(SHUT, SWITCH, d.last)
        else:
            self.procedure(d)

    def segment(self, s):
        self.mark(OPEN, SEGMENT, s.first)
        self.listed(s.idents, s.commas, self.declaring)
        for mark, e in zip(s.marks, s.bounds):
            self.put(mark)
            self.within(BOUND, e)
        self.put(s.close)
        self.mark(SHUT, SEGMENT, s.close)

    def procedure(self, d):
        self.mark(OPEN, PROCEDURE, d.first)
        self.entries(d.scope, d.first)
        if d.type_:
            self.put(d.type_)
        self.put(d.procedure)
        self.declaring(d.ident)
        if d.open:
            self.put(d.open)
            self.listed(d.formals, d.formal_commas, lambda f: self.declaring(f, FORMAL))
            self.put(d.close)
        self.put(d.head_semi)
        last = d.head_semi
        if d.value:
            self.put(d.value)
            self.listed(d.values, d.value_commas,
                        lambda s: self.out.append((VALUE, s.value, s.line)))
            self.put(d.value_semi)
            last = d.value_semi
        for syms, _, idents, commas, semi in d.specs:
            for sym in syms:
                self.put(sym)
            self.listed(idents, commas,
                        lambda s: self.out.append((SPEC, s.value, s.line)))
            self.put(semi)
            last = semi
        body = d.body
        self.mark(OPEN, BODY, body.first or body.follower)
        self.statement(body)
        self.mark(SHUT, BODY, body.last or body.follower)
        self.mark(SHUT, PROCEDURE, body.last or last)

    # expressions

    def within(self, number, e):
        self.mark(OPEN, number, e.first)
        self.expr(e)
        self.mark(SHUT, number, e.last)

    def index(self, e):
        self.used(e.ident)
        self.group(e, SUBSCRIPT, SUBSCRIBED)

    def group(self, e, number, tag):
        """Subscripts or actuals."""
        polish = self.k == 6
        for mark, part in zip(e.marks, e.parts):
            if not polish:
                self.put(mark)
            self.within(number, part)
        if polish:
            self.out.append((tag, len(e.parts), e.marks[0].line))
        else:
            self.put(e.close)

    def expr(self, e):
        polish = self.k == 6
        if isinstance(e, Ident):
            self.used(e)
            if polish and e.is_call:
                self.out.append((CALLED, 0, e.sym.line))
        elif isinstance(e, Number):
            self.put(e.sym)
        elif isinstance(e, Binary):
            self.expr(e.left)
            if not polish:
                self.put(e.op)
            self.expr(e.right)
            if polish:
                self.out.append((OPERATION, e.op.tag, e.op.line))
        elif isinstance(e, Unary):
            if not polish:
                self.put(e.op)
            self.expr(e.inner)
            if polish:
                self.out.append((OPERATION, e.op.tag, e.op.line))
        elif isinstance(e, Paren):
            self.put(e.open)
            self.expr(e.inner)
            self.put(e.close)
        elif isinstance(e, Index):
            self.index(e)
        elif isinstance(e, String):
            for sym in e.syms:
                self.put(sym)
        elif isinstance(e, Conditional):
            self.mark(OPEN, CONDITIONAL, e.if_)
            self.put(e.if_)
            self.expr(e.test)
            self.put(e.then)
            self.expr(e.yes)
            self.put(e.else_)
            self.expr(e.no)
            self.mark(SHUT, CONDITIONAL, e.last)
        else:
            self.used(e.ident)
            self.group(e, ACTUAL, CALLED)


def spell(program, k):
    w = Writer(k)
    w.program(program if k >= 4 else program.written)
    return w.out


# The tags that may stand in each text.
_TWO = set(range(3, 9)) | set(range(10, 56))
TAGS = {
    1: {1, 2} | set(range(5, 9)) | set(range(10, 56)),
    2: _TWO,
    3: _TWO | set(range(60, 69)) | {77},
    4: _TWO | set(range(60, 69)) | {69, 70, 73, 78},
    5: (_TWO | set(range(60, 69)) | {69, 70, 73, 71, 72}) - {3},
}
TAGS[6] = (TAGS[5] | {74, 75, 76}) - set(range(10, 26)) - {60, 61}
_CODE = set(range(128 + 1, 128 + 56))
TAGS[7] = set(range(120, 127)) | _CODE
TAGS[8] = {120, 121, 122, 123} | _CODE
