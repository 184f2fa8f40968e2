"""Scopes: which declaration each use means, the faults of that, and the levels, addresses and numbers of what is declared.

`resolve` finds the faults and ties each use to its `Entity`. `hoist` moves own quantities to a block of their own around the
program, and `allocate` gives addresses and numbers on the hoisted tree."""
from model.tree import (Assign, Binary, Block, Call, CallStatement, Compound, Conditional, For, Goto, Ident, If,
                        Index, OwnPlace, Paren, ProcDecl, Program, Sym, SwitchDecl, TypeDecl, Unary, ArrayDecl)

# Kinds of entities.
INTEGER, BOOLEAN, LABEL, SWITCH, PROCEDURE = 1, 2, 5, 6, 7
VARIABLES = (1, 2)
ARRAYS = (3, 4)
PROCEDURES = (7, 8, 9)
VALUE_FORMALS = (11, 12)
NAME_FORMALS = (13, 14)
ARRAY_FORMALS = (15, 16)
LABEL_FORMAL, SWITCH_FORMAL, STRING_FORMAL = 17, 18, 19
PROC_FORMALS = (20, 21, 22)

SPEC_KINDS = {(47,): 13, (48,): 14, (47, 49): 15, (48, 49): 16, (53,): 17,
              (50,): 18, (52,): 19, (51,): 20, (47, 51): 21, (48, 51): 22}

FAULTS = ("declared twice", "not declared", "local in bound", "not formal",
          "specified twice", "not specified", "level")

GREATEST_LEVEL = 255


class Entity:
    """A declared identifier: its kind, identifier number, level and address, the count of its subscripts or formals, and for a
    procedure its declaration."""
    __slots__ = ("kind", "name", "level", "address", "count", "decl", "own",
                 "formals", "in_value", "spec")

    def __init__(self, kind, name, decl=None):
        self.kind, self.name, self.decl = kind, name, decl
        self.level = self.address = 0
        self.count = 0
        self.own = None                # of an own quantity its number
        self.formals = None
        self.in_value = False
        self.spec = None

    def number(self):
        """The identifier number that texts 4 to 6 show."""
        return self.name if self.own is None else (1 << 32) + self.own


class Scope:
    __slots__ = ("parent", "names")

    def __init__(self, parent):
        # A scope without declarations can't be the answer of a look-up.
        while parent is not None and not parent.names:
            parent = parent.parent
        self.parent = parent
        self.names = {}

    def find(self, name):
        scope = self
        while scope is not None:
            e = scope.names.get(name)
            if e is not None:
                return e, scope
            scope = scope.parent
        return None, None


class Resolver:
    def __init__(self, program):
        self.faults = []               # (position, row, line)
        self.outer = Scope(None)
        for i in range(8):
            self.outer.names[i] = Entity(31 + i, i)
        self.own_count = 0
        self.program(program)

    def fault(self, sym, row):
        self.faults.append((sym.pos, row, sym.line))

    def list4(self):
        """The faults in order, at most one for each symbol."""
        return one_each(self.faults, FAULTS)

    def declare(self, scope, entities, sym, entity):
        entities.append(entity)
        if sym.value in scope.names:
            self.fault(sym, 0)
        else:
            scope.names[sym.value] = entity
        return entity

    def labels_of(self, scope, entities, statements, level):
        """The labels that belong to this scope, in source order."""
        todo = list(reversed(statements))
        while todo:
            s = todo.pop()
            for label in s.labels:
                e = Entity(LABEL, label.sym.value, label)
                e.level = level
                label.entity = self.declare(scope, entities, label.sym, e)
            if isinstance(s, Compound):
                todo.extend(reversed(s.statements))
            elif isinstance(s, If):
                if s.no is not None:
                    todo.append(s.no)
                todo.append(s.yes)

    def program(self, p):
        level = 2 if p.owns else 1
        scope, p.scope = Scope(self.outer), []
        self.labels_of(scope, p.scope, [p.statement], level)
        self.statement(p.statement, scope, level)

    # statements

    def statements(self, list_, scope, level):
        for s in list_:
            self.statement(s, scope, level)

    def statement(self, s, scope, level):
        if isinstance(s, Compound):
            self.statements(s.statements, scope, level)
        elif isinstance(s, Block):
            self.block(s, scope, level + 1)
        elif isinstance(s, Assign):
            for left, _ in s.lefts:
                self.uses(left, scope)
            self.uses(s.right, scope)
        elif isinstance(s, Goto):
            self.uses(s.target, scope)
        elif isinstance(s, CallStatement):
            self.uses(s.call, scope)
        elif isinstance(s, If):
            self.uses(s.test, scope)
            self.statement(s.yes, scope, level)
            if s.no is not None:
                self.statement(s.no, scope, level)
        elif isinstance(s, For):
            self.uses(s.variable, scope)
            for element in s.elements:
                for e in element.parts:
                    self.uses(e, scope)
            inner, s.scope = Scope(scope), []
            self.labels_of(inner, s.scope, [s.body], level)
            self.statement(s.body, inner, level)

    def block(self, b, outer, level):
        b.level = level
        if level > GREATEST_LEVEL:
            self.fault(b.begin, 6)
        scope, b.scope = Scope(outer), []
        for d in b.decls:
            self.declaration(d, scope, b.scope, level)
        self.labels_of(scope, b.scope, b.statements, level)
        for d in b.decls:
            if isinstance(d, ArrayDecl):
                for segment in d.segments:
                    for e in segment.bounds:
                        self.uses(e, scope, scope)
            elif isinstance(d, SwitchDecl):
                for e in d.elements:
                    self.uses(e, scope)
            elif isinstance(d, ProcDecl):
                self.procedure(d, scope)
        self.statements(b.statements, scope, level)

    def declaration(self, d, scope, entities, level):
        def new(declared, kind, count=0):
            e = Entity(kind, declared.sym.value, d)
            e.level, e.count = level, count
            declared.entity = self.declare(scope, entities, declared.sym, e)
            if isinstance(d, (TypeDecl, ArrayDecl)) and d.own is not None:
                e.own = self.own_count         # fixed below, in source order
                e.level = 2
            return e
        if isinstance(d, TypeDecl):
            for declared in d.idents:
                new(declared, d.type_.tag - 46)
        elif isinstance(d, ArrayDecl):
            for segment in d.segments:
                for declared in segment.idents:
                    new(declared, d.type_.tag - 44, len(segment.bounds) // 2)
        elif isinstance(d, SwitchDecl):
            new(d.ident, SWITCH)
        else:
            kind = PROCEDURE if d.type_ is None else d.type_.tag - 39
            e = new(d.ident, kind, len(d.formals))
            d.entity = e
            d.level = level + 1
            if d.level > GREATEST_LEVEL:
                self.fault(d.procedure, 6)

    def procedure(self, d, outer):
        scope, d.scope = Scope(outer), []
        formals = []
        for declared in d.formals:
            e = Entity(0, declared.sym.value, d)
            e.level = d.level
            declared.entity = self.declare(scope, d.scope, declared.sym, e)
            formals.append(e)
        by_name = {}
        for declared in d.formals:
            by_name.setdefault(declared.sym.value, declared.entity)
        listed = set()
        for sym in d.values:
            e = by_name.get(sym.value)
            if e is None:
                self.fault(sym, 3)
            elif sym.value in listed:
                self.fault(sym, 4)
            else:
                e.in_value = True
            listed.add(sym.value)
        for _, spec, idents, _, _ in d.specs:
            for sym in idents:
                e = by_name.get(sym.value)
                if e is None:
                    self.fault(sym, 3)
                elif e.spec is not None:
                    self.fault(sym, 4)
                else:
                    e.spec = spec
        for declared in d.formals:
            e = declared.entity
            if e is by_name[declared.sym.value] and e.spec is None:
                self.fault(declared.sym, 5)
            if e.spec is not None:
                e.kind = SPEC_KINDS[e.spec]
                if e.in_value and e.kind in NAME_FORMALS:
                    e.kind -= 2
        d.entity.formals = formals
        self.labels_of(scope, d.scope, [d.body], d.level)
        self.statement(d.body, scope, d.level)

    # uses

    def uses(self, e, scope, own_block=None):
        """Ties each identifier in e.  own_block: the scope whose bound it is."""
        todo = [e]
        while todo:
            e = todo.pop()
            if isinstance(e, Ident):
                name = e.sym.value
                found, where = scope.find(name)
                e.entity = found
                if found is None:
                    self.fault(e.sym, 1)
                elif where is own_block:
                    self.fault(e.sym, 2)
            elif isinstance(e, Binary):
                todo.append(e.right)
                todo.append(e.left)
            elif isinstance(e, (Paren, Unary)):
                todo.append(e.inner)
            elif isinstance(e, (Index, Call)):
                todo.append(e.ident)
                todo.extend(e.parts)
            elif isinstance(e, Conditional):
                todo.extend((e.test, e.yes, e.no))


def one_each(faults, texts):
    """In the order of symbols, and for each symbol the fault that stands first in the table."""
    out, last = [], -1
    for pos, row, line in sorted(faults):
        if pos != last:
            out.append((pos, line, texts[row]))
            last = pos
    return out


def resolve(program):
    """The faults of scopes of the tree as it is written."""
    r = Resolver(program)
    i = 0
    for d in program.owns:                       # numbers in source order
        for declared in own_idents(d):
            declared.entity.own = i
            i += 1
    return r.list4()


def own_idents(d):
    if isinstance(d, TypeDecl):
        return d.idents
    return [declared for segment in d.segments for declared in segment.idents]


def hoist(written):
    """Own quantities in a block around the program, before all others. The entities of own quantities are shared with their uses."""
    if not written.owns:
        written.written = written
        return written
    first = written.statement.first
    program = Program()
    block = Block()
    block.begin = Sym(36, 0, first.line)
    block.end = Sym(37, 0, written.end.line)
    block.decls = list(written.owns)
    block.decl_semis = [Sym(30, 0, own_idents(d)[-1].sym.line) for d in written.owns]
    block.statements = [written.statement]
    block.semis = []
    block.level = 2
    block.labels = []
    block.start = block.first = block.begin
    block.last = block.end
    block.follower = None
    block.need = None
    block.scope = [x.entity for d in written.owns for x in own_idents(d)] + written.scope
    program.statement = block
    program.end = written.end
    program.scope = []
    program.owns = written.owns
    program.written = written
    replace_owns(written.statement, set(map(id, written.owns)))
    return program


def replace_owns(statement, owns):
    """Puts an OwnPlace in the place of each own declaration."""
    todo = [statement]
    while todo:
        s = todo.pop()
        if isinstance(s, Compound):
            todo.extend(s.statements)
        elif isinstance(s, Block):
            s.decls = [OwnPlace(d) if id(d) in owns else d for d in s.decls]
            todo.extend(s.statements)
            todo.extend(d.body for d in s.decls if isinstance(d, ProcDecl))
        elif isinstance(s, If):
            todo.append(s.yes)
            if s.no is not None:
                todo.append(s.no)
        elif isinstance(s, For):
            todo.append(s.body)


def declared_in(block):
    """The entities that the block declares in the hoisted tree. An own
    quantity has level 2, which only the hoisted block has where there is one."""
    return [e for e in block.scope if e.own is None or block.level == 2]


def allocate(program):
    """Addresses of variables, arrays and formals, and the numbers of
    labels, switches and procedures in the order of their entries in text 4."""
    counter = [0]

    def number(entities):
        for e in entities:
            if e.kind in (LABEL, SWITCH) or e.kind in PROCEDURES:
                e.address = counter[0]
                counter[0] += 1

    def statement(s):
        if isinstance(s, Compound):
            for t in s.statements:
                statement(t)
        elif isinstance(s, Block):
            address = 3
            for e in declared_in(s):
                if e.kind in VARIABLES:
                    e.address = address
                    address += 1
                elif e.kind in ARRAYS:
                    e.address = address
                    address += 2 + 2 * e.count
            number(declared_in(s))
            for d in s.decls:
                if isinstance(d, ProcDecl):
                    procedure(d)
            for t in s.statements:
                statement(t)
        elif isinstance(s, If):
            statement(s.yes)
            if s.no is not None:
                statement(s.no)
        elif isinstance(s, For):
            number(s.scope)
            statement(s.body)

    def procedure(d):
        address = 5 + (1 if d.type_ is not None else 0)
        for declared in d.formals:
            declared.entity.address = address
            address += 2
        number(d.scope)
        statement(d.body)

    number(program.scope)
    statement(program.statement)
    return counter[0]
