"""The tree of a program: one class for each kind of node that the other parts need, and a builder by recursive descent.

`build(text2)` gives the tree of a text 2 without a fault of structure. Every node keeps the symbols that belong to it, so that
texts 3 to 6 can be spelled from it."""

TYPES = (47, 48)                       # _integer _boolean
RELATIONS = frozenset(range(15, 21))
LEADING_PLUS, LEADING_MINUS = 60, 61


class Sym:
    """A symbol: tag, value, line, and its position in text 2 (-1 if new)."""
    __slots__ = ("tag", "value", "line", "pos")

    def __init__(self, tag, value, line, pos=-1):
        self.tag, self.value, self.line, self.pos = tag, value, line, pos


class Node:
    __slots__ = ()

    def __repr__(self):
        return "<%s>" % type(self).__name__


class Expr(Node):
    """first and last are the first and last symbol; type is filled by kinds."""
    __slots__ = ("first", "last", "type", "need")

    def __init__(self):
        self.type = None
        self.need = None


class Number(Expr):
    __slots__ = ("sym",)

    def __init__(self, sym):
        Expr.__init__(self)
        self.sym = self.first = self.last = sym


class Logical(Number):
    __slots__ = ()


class Ident(Expr):
    """An identifier alone.  entity is filled by scope.  is_call: kinds.py says
    whether it is a call without actuals."""
    __slots__ = ("sym", "entity", "is_call")

    def __init__(self, sym):
        Expr.__init__(self)
        self.sym = self.first = self.last = sym
        self.entity = None
        self.is_call = False


class Index(Expr):
    """ident "[" expr { "," expr } "]": array element or switch designator.
    marks[i] is the symbol before subscript i."""
    __slots__ = ("ident", "marks", "parts", "close")

    def __init__(self, ident, marks, parts, close):
        Expr.__init__(self)
        self.ident, self.marks, self.parts, self.close = ident, marks, parts, close
        self.first, self.last = ident.sym, close


class Call(Expr):
    """ident "(" actual { "," actual } ")"."""
    __slots__ = ("ident", "marks", "parts", "close")

    def __init__(self, ident, marks, parts, close):
        Expr.__init__(self)
        self.ident, self.marks, self.parts, self.close = ident, marks, parts, close
        self.first, self.last = ident.sym, close


class Paren(Expr):
    __slots__ = ("open", "inner", "close")

    def __init__(self, open_, inner, close):
        Expr.__init__(self)
        self.open, self.inner, self.close = open_, inner, close
        self.first, self.last = open_, close


class Unary(Expr):
    """A leading sign (tags 60, 61) or _not (21) before an expression."""
    __slots__ = ("op", "inner")

    def __init__(self, op, inner):
        Expr.__init__(self)
        self.op, self.inner = op, inner
        self.first, self.last = op, inner.last


class Binary(Expr):
    __slots__ = ("op", "left", "right")

    def __init__(self, op, left, right):
        Expr.__init__(self)
        self.op, self.left, self.right = op, left, right
        self.first, self.last = left.first, right.last


class Conditional(Expr):
    __slots__ = ("if_", "test", "then", "yes", "else_", "no")

    def __init__(self, if_, test, then, yes, else_, no):
        Expr.__init__(self)
        self.if_, self.test, self.then, self.yes, self.else_, self.no = (
            if_, test, then, yes, else_, no)
        self.first, self.last = if_, no.last


class String(Expr):
    __slots__ = ("syms", "bytes")

    def __init__(self, syms):
        Expr.__init__(self)
        self.syms = syms
        self.bytes = bytes(s.value for s in syms[1:-1])
        self.first, self.last = syms[0], syms[-1]


class Statement(Node):
    """labels: list of (Ident-like Label).  start: its first symbol, labels not
    counted.  first, last: with labels; for an empty statement both are None
    and `follower` is the symbol that follows it."""
    __slots__ = ("labels", "start", "first", "last", "follower", "need")


class Label(Node):
    __slots__ = ("sym", "colon", "entity")

    def __init__(self, sym, colon):
        self.sym, self.colon, self.entity = sym, colon, None


class Dummy(Statement):
    __slots__ = ()


class Compound(Statement):
    __slots__ = ("begin", "statements", "semis", "end")


class Block(Statement):
    """decls and their semis; scope is the list of its entities (scope.py).
    level is that of its activation."""
    __slots__ = ("begin", "decls", "decl_semis", "statements", "semis", "end",
                 "scope", "level")


class Assign(Statement):
    """lefts: list of (left part, `:=`)."""
    __slots__ = ("lefts", "right")


class Goto(Statement):
    __slots__ = ("goto", "target")


class CallStatement(Statement):
    __slots__ = ("call",)


class If(Statement):
    __slots__ = ("if_", "test", "then", "yes", "else_", "no")


class For(Statement):
    """marks[i] is the symbol before element i (`:=` or `,`); scope is that of
    the controlled statement."""
    __slots__ = ("for_", "variable", "marks", "elements", "do", "body", "scope")


class Element(Node):
    """kind "expr", "step" or "while"; syms are _step, _until or _while."""
    __slots__ = ("kind", "parts", "syms")

    def __init__(self, kind, parts, syms):
        self.kind, self.parts, self.syms = kind, parts, syms

    @property
    def first(self):
        return self.parts[0].first

    @property
    def last(self):
        return self.parts[-1].last


class Declared(Node):
    """An identifier in a declaring place (or formal list)."""
    __slots__ = ("sym", "entity")

    def __init__(self, sym):
        self.sym, self.entity = sym, None


class TypeDecl(Node):
    __slots__ = ("own", "type_", "idents", "commas")

    @property
    def first(self):
        return self.own or self.type_

    @property
    def last(self):
        return self.idents[-1].sym


class Segment(Node):
    """marks[i] is the symbol before bound i of the 2d bounds."""
    __slots__ = ("idents", "commas", "marks", "bounds", "close")

    @property
    def first(self):
        return self.idents[0].sym

    @property
    def last(self):
        return self.close


class ArrayDecl(Node):
    __slots__ = ("own", "type_", "array", "segments", "commas")


class SwitchDecl(Node):
    __slots__ = ("switch", "ident", "marks", "elements")

    @property
    def first(self):
        return self.switch

    @property
    def last(self):
        return self.elements[-1].last


class ProcDecl(Node):
    """formals: Declared with marks; values: symbols; specs: list of (symbols
    of the specifier, kind name, symbols of the identifiers, commas, semi)."""
    __slots__ = ("type_", "procedure", "ident", "open", "formals", "formal_commas",
                 "close", "head_semi", "value", "values", "value_commas",
                 "value_semi", "specs", "body", "scope", "level", "entity")

    @property
    def first(self):
        return self.type_ or self.procedure


class OwnPlace(Node):
    """An own declaration in its place after hoisting; it has no symbol."""
    __slots__ = ("decl",)

    def __init__(self, decl):
        self.decl = decl


class Program(Node):
    """statement is a block or compound with its labels."""
    __slots__ = ("statement", "end", "scope", "written", "owns")


class Builder:
    """Recursive descent over a text 2 that structure.py has accepted."""

    def __init__(self, text2):
        self.s = [Sym(t, v, line, i) for i, (t, v, line) in enumerate(text2)]
        self.at = 0
        self.tag = self.s[0].tag
        self.owns = []               # own declarations in source order

    def next(self):
        s = self.s[self.at]
        self.at += 1
        if self.at < len(self.s):
            self.tag = self.s[self.at].tag
        return s

    def take(self, tag):
        assert self.tag == tag, ("structure and tree disagree", self.at, self.tag, tag)
        return self.next()

    # program, blocks, statements

    def program(self):
        p = Program()
        labels = self.label_list()
        p.statement = self.begin(labels)
        assert self.tag == 8
        p.end = self.s[self.at]
        p.scope = None
        p.owns = self.owns
        p.written = None
        return p

    def label_list(self):
        labels = []
        while self.tag == 3 and self.s[self.at + 1].tag == 29:
            sym = self.next()
            labels.append(Label(sym, self.next()))
        return labels

    def finish(self, node, labels, start, last):
        node.labels = labels
        node.start = start
        node.first = labels[0].sym if labels else start
        node.last = last
        node.follower = None
        node.need = None
        return node

    def begin(self, labels):
        begin = self.take(36)
        decls, decl_semis = [], []
        while self.tag in (47, 48, 50, 51, 55):
            decls.append(self.declaration())
            decl_semis.append(self.take(30))
        statements, semis = [self.statement()], []
        while self.tag == 30:
            semis.append(self.next())
            statements.append(self.statement())
        end = self.take(37)
        node = Block() if decls else Compound()
        node.begin, node.end, node.statements, node.semis = begin, end, statements, semis
        if decls:
            node.decls, node.decl_semis = decls, decl_semis
            node.scope = node.level = None
        return self.finish(node, labels, begin, end)

    def statement(self):
        labels = self.label_list()
        tag = self.tag
        if tag == 36:
            return self.begin(labels)
        if tag == 46:
            node = Goto()
            node.goto = self.next()
            node.target = self.expr()
            return self.finish(node, labels, node.goto, node.target.last)
        if tag == 38:
            node = If()
            node.if_ = self.next()
            node.test = self.expr()
            node.then = self.take(39)
            node.yes = self.statement()
            node.else_ = node.no = None
            assert not isinstance(node.yes, If)
            if self.tag == 40 and not isinstance(node.yes, For):
                node.else_ = self.next()
                node.no = self.statement()
            tail = node.no if node.no is not None else node.yes
            last = tail.last or (node.else_ or node.then)
            return self.finish(node, labels, node.if_, last)
        if tag == 41:
            node = For()
            node.for_ = self.next()
            node.variable = Ident(self.take(3))
            node.marks = [self.take(31)]
            node.elements = [self.element()]
            while self.tag == 28:
                node.marks.append(self.next())
                node.elements.append(self.element())
            node.do = self.take(45)
            node.body = self.statement()
            node.scope = None
            return self.finish(node, labels, node.for_, node.body.last or node.do)
        if tag == 3:
            sym = self.next()
            if self.tag == 32:
                node = CallStatement()
                node.call = self.call(sym)
                return self.finish(node, labels, sym, node.call.last)
            if self.tag in (34, 31):
                return self.assignment(labels, sym)
            node = CallStatement()
            node.call = Ident(sym)
            return self.finish(node, labels, sym, sym)
        node = Dummy()
        self.finish(node, labels, None, None)
        if labels:
            node.last = labels[-1].colon
        node.follower = self.s[self.at]
        return node

    def assignment(self, labels, sym):
        node = Assign()
        left = self.subscripted(sym) if self.tag == 34 else Ident(sym)
        node.lefts = [(left, self.take(31))]
        while True:
            if self.tag == 3:
                part = self.primary()
                if self.tag == 31:
                    assert isinstance(part, (Ident, Index))
                    node.lefts.append((part, self.next()))
                    continue
                node.right = self.simple(part)
            else:
                node.right = self.expr()
            return self.finish(node, labels, node.lefts[0][0].first, node.right.last)

    def element(self):
        first = self.expr()
        if self.tag == 42:
            step = self.next()
            b = self.expr()
            until = self.take(43)
            return Element("step", [first, b, self.expr()], [step, until])
        if self.tag == 44:
            while_ = self.next()
            return Element("while", [first, self.expr()], [while_])
        return Element("expr", [first], [])

    # declarations

    def ident_list(self):
        idents, commas = [self.take(3)], []
        while self.tag == 28:
            commas.append(self.next())
            idents.append(self.take(3))
        return idents, commas

    def declaration(self):
        own = self.next() if self.tag == 55 else None
        if self.tag == 50:
            node = SwitchDecl()
            node.switch = self.next()
            node.ident = Declared(self.take(3))
            node.marks = [self.take(31)]
            node.elements = [self.expr()]
            while self.tag == 28:
                node.marks.append(self.next())
                node.elements.append(self.expr())
            return node
        type_ = self.next() if self.tag in TYPES else None
        if self.tag == 51:
            return self.procedure(type_)
        if self.tag == 49:
            node = ArrayDecl()
            node.own, node.type_ = own, type_
            if own:
                self.owns.append(node)
            node.array = self.next()
            node.segments, node.commas = [self.segment(own)], []
            while self.tag == 28:
                node.commas.append(self.next())
                node.segments.append(self.segment(own))
            return node
        node = TypeDecl()
        node.own, node.type_ = own, type_
        if own:
            self.owns.append(node)
        idents, node.commas = self.ident_list()
        node.idents = [Declared(s) for s in idents]
        return node

    def segment(self, own):
        node = Segment()
        idents, node.commas = self.ident_list()
        node.idents = [Declared(s) for s in idents]
        node.marks, node.bounds = [self.take(34)], []
        while True:
            node.bounds.append(self.constant() if own else self.expr())
            node.marks.append(self.take(29))
            node.bounds.append(self.constant() if own else self.expr())
            if self.tag != 28:
                break
            node.marks.append(self.next())
        node.close = self.take(35)
        return node

    def constant(self):
        if self.tag in (10, 11):
            sign = self.next()
            return Unary(self.leading(sign), Number(self.take(4)))
        return Number(self.take(4))

    @staticmethod
    def leading(sign):
        return Sym(LEADING_PLUS if sign.tag == 10 else LEADING_MINUS, 0, sign.line, sign.pos)

    def procedure(self, type_):
        node = ProcDecl()
        node.type_ = type_
        node.procedure = self.take(51)
        node.ident = Declared(self.take(3))
        node.open = node.close = node.value = node.value_semi = None
        node.formals, node.formal_commas = [], []
        node.values, node.value_commas, node.specs = [], [], []
        node.scope = node.level = node.entity = None
        if self.tag == 32:
            node.open = self.next()
            idents, node.formal_commas = self.ident_list()
            node.formals = [Declared(s) for s in idents]
            node.close = self.take(33)
        node.head_semi = self.take(30)
        if self.tag == 54:
            node.value = self.next()
            node.values, node.value_commas = self.ident_list()
            node.value_semi = self.take(30)
        while self.tag in (47, 48, 50, 51, 52, 53):
            syms = [self.next()]
            if syms[0].tag in TYPES and self.tag in (49, 51):
                syms.append(self.next())
            idents, commas = self.ident_list()
            node.specs.append((syms, tuple(s.tag for s in syms), idents, commas,
                               self.take(30)))
        node.body = self.statement()
        return node

    # expressions

    def expr(self):
        if self.tag == 38:
            if_ = self.next()
            test = self.expr()
            then = self.take(39)
            yes = self.simple(None)
            else_ = self.take(40)
            no = self.expr()
            return Conditional(if_, test, then, yes, else_, no)
        return self.simple(None)

    # Precedence of binary operators, loosest first: _equiv _impl _or _and,
    # relations (at most one), signs, * _div, ^.

    def simple(self, first):
        """simple, where `first` is its first primary if that was read."""
        e = self.implication(first)
        while self.tag == 25:
            op = self.next()
            e = Binary(op, e, self.implication(None))
        return e

    def implication(self, first):
        return self.boolean(first, 0)

    def boolean(self, first, depth):
        """impl, disj, conj in one climb: depth 0, 1, 2 for tags 24, 23, 22."""
        e = self.negation(first)
        return self.boolean_tail(e, depth)

    def boolean_tail(self, e, depth):
        while self.tag == 22:                        # _and
            op = self.next()
            e = Binary(op, e, self.negation(None))
        if depth == 2:
            return e
        while self.tag == 23:                        # _or
            op = self.next()
            e = Binary(op, e, self.boolean(None, 2))
        if depth == 1:
            return e
        while self.tag == 24:                        # _impl
            op = self.next()
            e = Binary(op, e, self.boolean(None, 1))
        return e

    def negation(self, first):
        if first is None and self.tag == 21:
            op = self.next()
            return Unary(op, self.relation(None))
        return self.relation(first)

    def relation(self, first):
        e = self.arithmetic(first)
        if self.tag in RELATIONS:
            op = self.next()
            e = Binary(op, e, self.arithmetic(None))
        return e

    def arithmetic(self, first):
        if first is None and self.tag in (10, 11):
            sign = self.leading(self.next())
            e = Unary(sign, self.term(None))
        else:
            e = self.term(first)
        while self.tag in (10, 11):
            op = self.next()
            e = Binary(op, e, self.term(None))
        return e

    def term(self, first):
        e = self.factor(first)
        while self.tag in (12, 13):
            op = self.next()
            e = Binary(op, e, self.factor(None))
        return e

    def factor(self, first):
        e = first if first is not None else self.primary()
        while self.tag == 14:
            op = self.next()
            e = Binary(op, e, self.primary())
        return e

    def primary(self):
        tag = self.tag
        if tag == 4:
            return Number(self.next())
        if tag in (26, 27):
            return Logical(self.next())
        if tag == 32:
            open_ = self.next()
            inner = self.expr()
            return Paren(open_, inner, self.take(33))
        sym = self.take(3)
        if self.tag == 32:
            return self.call(sym)
        if self.tag == 34:
            return self.subscripted(sym)
        return Ident(sym)

    def subscripted(self, sym):
        marks, parts = [self.take(34)], [self.expr()]
        while self.tag == 28:
            marks.append(self.next())
            parts.append(self.expr())
        return Index(Ident(sym), marks, parts, self.take(35))

    def call(self, sym):
        marks, parts = [self.take(32)], [self.actual()]
        while self.tag == 28:
            marks.append(self.next())
            parts.append(self.actual())
        return Call(Ident(sym), marks, parts, self.take(33))

    def actual(self):
        if self.tag == 5:
            syms = [self.next()]
            while self.tag == 6:
                syms.append(self.next())
            syms.append(self.take(7))
            return String(syms)
        return self.expr()


def build(text2):
    """The tree of the program whose text 2 this is."""
    return Builder(text2).program()
