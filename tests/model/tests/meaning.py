"""A plain interpreter of trees with environments: the meaning of a program without any object, to compare the coder and the flat run with.

It gives the same bytes, ending, steps, greatest words and data taken. It takes the words that an activation needs from room.py, as the
coder does, so it says nothing of those."""
from model import coder
from model.arithmetic import Alarm, Steps, divide, in_range, power
from model.data import Data
from model.room import block_header, block_need, need, statement_need
from model.scope import declared_in
from model.tree import (ArrayDecl, Assign, Binary, Block, CallStatement, Compound, Conditional, For, Goto, Ident, If, Index, Logical,
                        Number, Paren, String, Unary)

UNDEFINED = object()


class Go(Exception):
    def __init__(self, entity, env):
        self.entity, self.env = entity, env


class Env:
    """A map of entities, inside another.  live: words when its statements run."""
    def __init__(self, parent):
        self.map, self.parent, self.result = {}, parent, None


class Arr:
    def __init__(self, bounds):
        self.bounds, self.cells = bounds, {}


class Thunk:
    def __init__(self, kind, e, env):
        self.kind, self.e, self.env = kind, e, env


class Meaning:
    def __init__(self, program, data, steps, stack):
        self.left, self.limit, self.W = steps, steps, stack
        self.live = self.greatest = 0
        self.io = Data(data)
        self.out = bytearray()
        self.alarm = None
        try:
            env = Env(None)
            for e in program.scope:
                env.map[e] = (e, env)
            self.take(3 + statement_need(program.statement))
            self.with_labels(env, lambda: self.exec(program.statement, env),
                             [program.statement], program.scope)
            self.ending = "ended"
        except Alarm as a:
            self.ending, self.alarm = "alarm", a.args[0]
        except Steps:
            self.ending = "steps"
        self.steps = self.limit - self.left

    # accounts

    def step(self):
        if self.left == 0:
            raise Steps
        self.left -= 1

    def take(self, n):
        if self.live + n > self.W:
            raise Alarm("stack")
        self.live += n
        self.greatest = max(self.greatest, self.live)

    def find(self, entity, env):
        while entity not in env.map:
            env = env.parent
        return env.map[entity]

    def home(self, entity, env):
        while entity not in env.map:
            env = env.parent
        return env

    # expressions

    def value(self, e, env):
        if isinstance(e, Logical):
            return 1 if e.sym.tag == 26 else 0
        if isinstance(e, Number):
            return e.sym.value
        if isinstance(e, Paren):
            return self.value(e.inner, env)
        if isinstance(e, Unary):
            v = self.value(e.inner, env)
            return {60: lambda: v, 61: lambda: in_range(-v), 21: lambda: 1 - v}[e.op.tag]()
        if isinstance(e, Binary):
            a = self.value(e.left, env)
            b = self.value(e.right, env)
            return self.operate(e.op.tag, a, b)
        if isinstance(e, Conditional):
            return self.value(e.yes if self.value(e.test, env) else e.no, env)
        if isinstance(e, Index):
            cells, key = self.place(e, env)
            return cells.get(key, 0)
        if isinstance(e, Ident):
            k = e.entity.kind
            if k in (1, 2, 11, 12):
                return self.find(e.entity, env)[0]
            if k in (13, 14):
                return self.name(self.find(e.entity, env), "value")
            return self.call(e.entity, [], env)
        return self.call(e.ident.entity, e.parts, env)

    @staticmethod
    def operate(tag, a, b):
        return {10: lambda: in_range(a + b), 11: lambda: in_range(a - b),
                12: lambda: in_range(a * b), 13: lambda: divide(a, b),
                14: lambda: power(a, b), 15: lambda: int(a < b), 16: lambda: int(a <= b),
                17: lambda: int(a == b), 18: lambda: int(a >= b), 19: lambda: int(a > b),
                20: lambda: int(a != b), 22: lambda: a & b, 23: lambda: a | b,
                24: lambda: (1 - a) | b, 25: lambda: int(a == b)}[tag]()

    def place(self, e, env):
        """An address: (dict or cell, key)."""
        if isinstance(e, Index):
            arr = self.find(e.ident.entity, env)
            subs = [self.value(p, env) for p in e.parts]
            if len(subs) != len(arr.bounds):
                raise Alarm("subscript")
            if any(not low <= s <= high for s, (low, high) in zip(subs, arr.bounds)):
                raise Alarm("subscript")
            return arr.cells, tuple(subs)
        k = e.entity.kind
        if k in (13, 14):
            return self.name(self.find(e.entity, env), "address")
        if k in (8, 9):
            return self.result_of(e.entity, env), 0
        return self.find(e.entity, env), 0

    def result_of(self, entity, env):
        while env.result is None or env.result[0] is not entity:
            env = env.parent
        return env.result[1]

    def name(self, thunk, wish):
        self.step()
        before = self.live
        self.take(5 + need(thunk.e))
        e, env = thunk.e, thunk.env
        if thunk.kind == "expression":
            if wish == "address":
                raise Alarm("assignment")
            v = self.value(e, env)
        elif thunk.kind == "name":
            v = self.name(self.find(e.entity, env), wish)
        else:
            cells, key = self.place(e, env)
            v = (cells, key)
            if wish == "value":
                v = cells.get(key, 0) if isinstance(cells, dict) else cells[key]
        self.live = before
        return v

    def label(self, e, env):
        if isinstance(e, Paren):
            return self.label(e.inner, env)
        if isinstance(e, Conditional):
            return self.label(e.yes if self.value(e.test, env) else e.no, env)
        if isinstance(e, Index):
            i = self.value(e.parts[0], env)
            decl, home = self.find(e.ident.entity, env)
            if not 1 <= i <= len(decl.elements):
                return UNDEFINED
            return self.evaluation(decl.elements[i - 1], home)
        if e.entity.kind == 5:
            return self.find(e.entity, env)
        thunk = self.find(e.entity, env)
        return self.evaluation(thunk.e, thunk.env)

    def evaluation(self, e, env):
        self.step()
        before = self.live
        self.take(5 + need(e))
        v = self.label(e, env)
        self.live = before
        return v

    # calls

    def thunk_of(self, a, env, label=False):
        if label:
            return Thunk("label", a, env)
        if isinstance(a, Index) or isinstance(a, Ident) and a.entity.kind in (1, 2, 11, 12):
            return Thunk("variable", a, env)
        if isinstance(a, Ident) and a.entity.kind in (13, 14):
            return Thunk("name", a, env)
        return Thunk("expression", a, env)

    def call(self, entity, parts, env):
        k = entity.kind
        if k >= 31:
            return self.standard(k, parts, env)
        decl, home = self.find(entity, env)
        formals = decl.entity.formals
        free = k in (20, 21, 22)
        if free:
            kinds = [coder.formal_kind(f.kind) for f in formals]
            actual = [coder.actual_kind(a) for a in parts]
            if len(kinds) != len(actual) or any(
                    not (x == y or (x, y) in ((1, 3), (2, 4))) for x, y in zip(kinds, actual)):
                raise Alarm("parameters")
        given = []
        for f, a in zip(formals, parts):
            if f.kind in (11, 12):
                given.append(self.thunk_of(a, env) if free else [self.value(a, env)])
            elif f.kind in (13, 14):
                given.append(self.thunk_of(a, env))
            elif f.kind == 17:
                given.append(self.thunk_of(a, env, True))
            elif isinstance(a, String):
                given.append(a.bytes)
            else:
                given.append(self.find(a.entity, env))
        if free:
            for i, f in enumerate(formals):
                if f.kind in (11, 12):
                    given[i] = [self.name(given[i], "value")]
        self.step()
        before = self.live
        f = 1 if decl.type_ is not None else 0
        self.take(5 + 2 * len(formals) + f + statement_need(decl.body))
        inner = Env(home)
        if f:
            inner.result = (decl.entity, [0])
        for formal, g in zip(formals, given):
            inner.map[formal] = g
        labels = [e for e in decl.scope if e.kind == 5]
        for e in labels:
            inner.map[e] = (e, inner)
        self.with_labels(inner, lambda: self.exec(decl.body, inner), [decl.body], labels)
        self.live = before
        return inner.result[1][0] if f else None

    def standard(self, k, parts, env):
        if k == 32:
            a = parts[0]
            self.out += a.bytes if isinstance(a, String) else self.find(a.entity, env)
            return None
        v = self.value(parts[0], env) if parts else None
        if k == 31:
            self.out += b"%d" % v
        elif k == 33:
            self.out.append(10)
        elif k == 34:
            if not 0 <= v <= 255:
                raise Alarm("character")
            self.out.append(v)
        elif k == 35:
            return self.io.integer()
        elif k == 36:
            b = self.io.next_byte()
            return -1 if b is None else b
        elif k == 37:
            return in_range(abs(v))
        return (v > 0) - (v < 0) if k == 38 else None

    # statements

    def with_labels(self, env, run, statements, labels):
        """A go to one of these labels executes the rest."""
        if not labels:
            run()
            return
        live = self.live
        while True:
            try:
                run()
                return
            except Go as go:
                if go.env is not env or go.entity not in labels:
                    raise
                self.live = live
                entity = go.entity

                def run(entity=entity):
                    self.rest(entity, statements, env)

    def holds(self, entity, s):
        if any(x.entity is entity for x in s.labels):
            return True
        if isinstance(s, Compound):
            return any(self.holds(entity, t) for t in s.statements)
        if isinstance(s, If):
            return self.holds(entity, s.yes) or s.no is not None and self.holds(entity, s.no)
        return False

    def rest(self, entity, statements, env):
        for i, s in enumerate(statements):
            if self.holds(entity, s):
                if any(x.entity is entity for x in s.labels):
                    self.exec(s, env)
                elif isinstance(s, Compound):
                    self.rest(entity, s.statements, env)
                else:
                    self.rest(entity, [s.yes if self.holds(entity, s.yes) else s.no], env)
                for t in statements[i + 1:]:
                    self.exec(t, env)
                return
        raise AssertionError

    def exec(self, s, env):
        if isinstance(s, Compound):
            for t in s.statements:
                self.exec(t, env)
        elif isinstance(s, Block):
            self.block(s, env)
        elif isinstance(s, Assign):
            places = [self.place(left, env) for left, _ in s.lefts]
            v = self.value(s.right, env)
            for cells, key in places:
                cells[key] = v
        elif isinstance(s, Goto):
            v = self.label(s.target, env)
            if v is not UNDEFINED:
                self.step()
                raise Go(*v)
        elif isinstance(s, CallStatement):
            if isinstance(s.call, Ident):
                self.call(s.call.entity, [], env)
            else:
                self.call(s.call.ident.entity, s.call.parts, env)
        elif isinstance(s, If):
            if self.value(s.test, env):
                self.exec(s.yes, env)
            elif s.no is not None:
                self.exec(s.no, env)
        elif isinstance(s, For):
            self.for_(s, env)

    def for_(self, f, env):
        v = f.variable

        def turn():
            inner = env
            if f.scope:
                inner = Env(env)
                for e in f.scope:
                    inner.map[e] = (e, inner)
            self.with_labels(inner, lambda: self.exec(f.body, inner), [f.body], f.scope)
            self.step()

        def assign(value):
            cells, key = self.place(v, env)
            cells[key] = value()

        for e in f.elements:
            if e.kind == "expr":
                assign(lambda: self.value(e.parts[0], env))
                turn()
            elif e.kind == "step":
                a, b, c = e.parts
                assign(lambda: self.value(a, env))
                while True:
                    difference = self.value(v, env)
                    difference = in_range(difference - self.value(c, env))
                    sign = self.value(b, env)
                    if in_range(difference * ((sign > 0) - (sign < 0))) > 0:
                        break
                    turn()

                    def more():
                        old = self.value(v, env)
                        return in_range(old + self.value(b, env))
                    assign(more)
            else:
                while True:
                    assign(lambda: self.value(e.parts[0], env))
                    if not self.value(e.parts[1], env):
                        break
                    turn()

    def block(self, b, outer):
        self.step()
        before = self.live
        self.take(block_header(b) + block_need(b))
        env = Env(outer)
        labels = []
        for e in declared_in(b):
            if e.kind in (1, 2):
                env.map[e] = [0]
            elif e.kind == 5:
                env.map[e] = (e, env)
                labels.append(e)
            elif e.kind in (6, 7, 8, 9):
                env.map[e] = (e.decl, env)
        for d in b.decls:
            if isinstance(d, ArrayDecl):
                for s in d.segments:
                    values = [self.value(x, env) for x in s.bounds]
                    pairs = list(zip(values[::2], values[1::2]))
                    size = 1
                    for low, high in pairs:
                        if high < low:
                            raise Alarm("bounds")
                        size *= high - low + 1
                    for x in s.idents:
                        self.take(size)
                        env.map[x.entity] = Arr(pairs)

        def run():
            for t in b.statements:
                self.exec(t, env)
        self.with_labels(env, run, b.statements, labels)
        self.live = before
