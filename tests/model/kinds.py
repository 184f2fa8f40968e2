"""The faults of types, found on a tree without faults of scopes; each expression is given its type. Own declarations raise none."""
from model.scope import (ARRAY_FORMALS, ARRAYS, LABEL, LABEL_FORMAL, NAME_FORMALS, PROC_FORMALS, PROCEDURES, STRING_FORMAL,
                         SWITCH, SWITCH_FORMAL, VALUE_FORMALS, one_each)
from model.tree import (ArrayDecl, Assign, Binary, Block, CallStatement, Compound, Conditional, For, Goto, Ident, If, Index,
                        Logical, Number, Paren, ProcDecl, String, SwitchDecl, Unary)

I, B, LAB, UNKNOWN = "integer", "boolean", "label", None

FAULTS = ("list too long", "value", "kind", "subscripts", "parameter count", "parameter",
          "bound", "for", "condition", "branches", "designational", "assignment", "operand")
(TOO_LONG, VALUE, KIND, SUBSCRIPTS, COUNT, PARAMETER, BOUND, FOR, CONDITION, BRANCHES,
 DESIGNATIONAL, ASSIGNMENT, OPERAND) = range(13)

OUTINTEGER, OUTTEXT, OUTCR, OUTCHAR, ININTEGER, INCHAR, ABS, SIGN = range(31, 39)
# The kinds of the formals of the standard procedures.
STANDARD_FORMALS = {OUTINTEGER: [11], OUTTEXT: [19], OUTCR: [], OUTCHAR: [11],
                    ININTEGER: [], INCHAR: [], ABS: [11], SIGN: [11]}

MOST_SUBSCRIPTS, MOST_ACTUALS, MOST_FORMALS_OF_ACTUAL = 30, 255, 80

VALUE_TYPES = {1: I, 2: B, 11: I, 12: B, 13: I, 14: B}
ELEMENT_TYPES = {3: I, 4: B, 15: I, 16: B}


def alone_type(entity):
    """An identifier alone in an expression: (whether that is allowed, its type, whether it is a call)."""
    k = entity.kind
    if k in VALUE_TYPES:
        return True, VALUE_TYPES[k], False
    if k in (LABEL, LABEL_FORMAL):
        return True, LAB, False
    if k in (8, 9) and entity.count == 0:
        return True, I if k == 8 else B, True
    if k in (21, 22):
        return True, I if k == 21 else B, True
    if k in (ININTEGER, INCHAR):
        return True, I, True
    return False, UNKNOWN, False


class Kinds:
    def __init__(self, program):
        self.faults = []
        self.open = set()                # procedures whose declaration is open
        self.statement(program.statement)

    def list5(self):
        return one_each(self.faults, FAULTS)

    def fault(self, sym, row):
        self.faults.append((sym.pos, row, sym.line))

    # expressions

    def type_of(self, e):
        if isinstance(e, Binary):
            left = self.type_of(e.left)
            right = self.type_of(e.right)
            tag = e.op.tag
            wanted = B if 22 <= tag <= 25 else I
            if left not in (wanted, UNKNOWN) or right not in (wanted, UNKNOWN):
                self.fault(e.op, OPERAND)
            t = I if tag <= 14 else B
        elif isinstance(e, Ident):
            good, t, e.is_call = alone_type(e.entity)
            if not good:
                self.fault(e.sym, KIND)
        elif isinstance(e, Logical):
            t = B
        elif isinstance(e, Number):
            t = I
        elif isinstance(e, Paren):
            t = self.type_of(e.inner)
        elif isinstance(e, Unary):
            inner = self.type_of(e.inner)
            t = B if e.op.tag == 21 else I
            if inner not in (t, UNKNOWN):
                self.fault(e.op, OPERAND)
        elif isinstance(e, Index):
            t = self.index(e, False)
        elif isinstance(e, Conditional):
            self.condition(e.test, e.if_)
            yes = self.type_of(e.yes)
            no = self.type_of(e.no)
            if yes is UNKNOWN:
                t = no
            elif no is UNKNOWN or no == yes:
                t = yes
            else:
                t = UNKNOWN
                self.fault(e.else_, BRANCHES)
        else:
            t = self.call(e, False)
        e.type = t
        return t

    def condition(self, e, sym):
        if self.type_of(e) not in (B, UNKNOWN):
            self.fault(sym, CONDITION)

    def index(self, e, left_part):
        """Array element or switch designator; left_part: as a left part."""
        entity = e.ident.entity
        k = entity.kind
        if k in ELEMENT_TYPES:
            t = ELEMENT_TYPES[k]
        elif k in (SWITCH, SWITCH_FORMAL) and not left_part:
            t = LAB
        else:
            t = UNKNOWN
            self.fault(e.ident.sym, KIND)
        n = len(e.parts)
        if n > MOST_SUBSCRIPTS:
            self.fault(e.marks[MOST_SUBSCRIPTS], TOO_LONG)
        if (k in ARRAYS and n != entity.count) or (k in (SWITCH, SWITCH_FORMAL) and n != 1):
            self.fault(e.marks[0], SUBSCRIPTS)
        for mark, part in zip(e.marks, e.parts):
            if self.type_of(part) not in (I, UNKNOWN):
                self.fault(mark, SUBSCRIPTS)
        e.type = t
        return t

    def call(self, e, statement):
        """A call with `(`, in an expression or as a statement."""
        entity = e.ident.entity
        k = entity.kind
        typed = {8: I, 9: B, 21: I, 22: B, ABS: I, SIGN: I}.get(k)
        if statement:
            good = ((k in PROCEDURES and entity.count > 0) or k in PROC_FORMALS
                    or k in (OUTINTEGER, OUTTEXT, OUTCHAR, ABS, SIGN))
        else:
            good = ((k in (8, 9) and entity.count > 0) or k in (21, 22)
                    or k in (ABS, SIGN))
        if not good:
            self.fault(e.ident.sym, KIND)
        n = len(e.parts)
        if n > MOST_ACTUALS:
            self.fault(e.marks[MOST_ACTUALS], TOO_LONG)
        formals = None
        if k in PROCEDURES:
            formals = [f.kind for f in entity.formals]
        elif k in STANDARD_FORMALS:
            formals = STANDARD_FORMALS[k]
        if formals is not None and n != len(formals):
            self.fault(e.marks[0], COUNT)
        for i, (mark, a) in enumerate(zip(e.marks, e.parts)):
            if not good:
                self.own_faults(a)
            elif k in PROC_FORMALS:
                self.free_actual(mark, a)
            elif i >= len(formals):
                self.own_faults(a)
            elif not self.fits(formals[i], a):
                self.fault(mark, PARAMETER)
        e.type = typed if good else UNKNOWN
        return e.type

    def own_faults(self, a):
        if not isinstance(a, (Ident, String)):
            self.type_of(a)

    def free_actual(self, mark, a):
        """An actual of a call of a formal procedure."""
        if isinstance(a, Ident):
            entity = a.entity
            k = entity.kind
            if k in (OUTINTEGER, OUTTEXT, OUTCR, OUTCHAR, ABS, SIGN) or (
                    k in PROCEDURES and entity.count > MOST_FORMALS_OF_ACTUAL):
                self.fault(mark, PARAMETER)
            elif k in (ININTEGER, INCHAR):
                a.is_call = True
                a.type = I
            elif k not in PROCEDURES and k not in PROC_FORMALS:
                a.type = alone_type(entity)[1]
        else:
            self.own_faults(a)

    def fits(self, formal, a):
        """Whether an actual fits a formal of this kind; the actual's own faults are added."""
        alone = isinstance(a, Ident)
        if not alone and not isinstance(a, String):
            t = self.type_of(a)
            if formal in VALUE_FORMALS or formal in NAME_FORMALS or formal == LABEL_FORMAL:
                wanted = LAB if formal == LABEL_FORMAL else VALUE_TYPES[formal]
                return t in (wanted, UNKNOWN)
            return t is UNKNOWN
        if formal in VALUE_FORMALS or formal in NAME_FORMALS or formal == LABEL_FORMAL:
            if not alone:
                return False
            good, t, call = alone_type(a.entity)
            wanted = LAB if formal == LABEL_FORMAL else VALUE_TYPES[formal]
            if good and t == wanted:
                a.is_call = call
                a.type = t
                return True
            return False
        if formal == STRING_FORMAL:
            return not alone or a.entity.kind == STRING_FORMAL
        if not alone:
            return False
        k = a.entity.kind
        if formal in ARRAY_FORMALS:
            return k in (formal, formal - 12)
        if formal == SWITCH_FORMAL:
            return k in (SWITCH, SWITCH_FORMAL)
        assert formal in PROC_FORMALS
        if k in PROC_FORMALS:
            return k == formal
        return (k in PROCEDURES and k == formal - 13
                and a.entity.count <= MOST_FORMALS_OF_ACTUAL)

    # statements

    def statement(self, s):
        if isinstance(s, Compound):
            for t in s.statements:
                self.statement(t)
        elif isinstance(s, Block):
            for d in s.decls:
                self.declaration(d)
            for t in s.statements:
                self.statement(t)
        elif isinstance(s, Assign):
            lefts = [(self.left_part(left), becomes) for left, becomes in s.lefts]
            right = self.type_of(s.right)
            for t, becomes in lefts:
                if t is not UNKNOWN and right is not UNKNOWN and t != right:
                    self.fault(becomes, ASSIGNMENT)
        elif isinstance(s, Goto):
            if self.type_of(s.target) not in (LAB, UNKNOWN):
                self.fault(s.goto, DESIGNATIONAL)
        elif isinstance(s, CallStatement):
            if isinstance(s.call, Ident):
                self.call_alone(s.call)
            else:
                self.call(s.call, True)
        elif isinstance(s, If):
            self.condition(s.test, s.if_)
            self.statement(s.yes)
            if s.no is not None:
                self.statement(s.no)
        elif isinstance(s, For):
            if s.variable.entity.kind not in (1, 11, 13):
                self.fault(s.variable.sym, KIND)
            for mark, element in zip(s.marks, s.elements):
                self.integer(element.parts[0], mark)
                if element.kind == "step":
                    self.integer(element.parts[1], element.syms[0])
                    self.integer(element.parts[2], element.syms[1])
                elif element.kind == "while":
                    self.condition(element.parts[1], element.syms[0])
            self.statement(s.body)

    def integer(self, e, sym):
        if self.type_of(e) not in (I, UNKNOWN):
            self.fault(sym, FOR)

    def call_alone(self, e):
        entity = e.entity
        k = entity.kind
        e.is_call = True
        if not ((k in PROCEDURES and entity.count == 0) or k in PROC_FORMALS
                or k in (OUTCR, ININTEGER, INCHAR)):
            self.fault(e.sym, KIND)

    def left_part(self, e):
        if isinstance(e, Index):
            return self.index(e, True)
        k = e.entity.kind
        if k in VALUE_TYPES:
            e.type = VALUE_TYPES[k]
        elif k in (8, 9) and e.entity in self.open:
            e.type = I if k == 8 else B
        else:
            self.fault(e.sym, KIND)
            e.type = UNKNOWN
        return e.type

    def declaration(self, d):
        if isinstance(d, ArrayDecl) and d.own is None:
            for segment in d.segments:
                if len(segment.bounds) > 2 * MOST_SUBSCRIPTS:
                    self.fault(segment.marks[2 * MOST_SUBSCRIPTS], TOO_LONG)
                for mark, e in zip(segment.marks, segment.bounds):
                    if self.type_of(e) not in (I, UNKNOWN):
                        self.fault(mark, BOUND)
        elif isinstance(d, SwitchDecl):
            for mark, e in zip(d.marks, d.elements):
                if self.type_of(e) not in (LAB, UNKNOWN):
                    self.fault(mark, DESIGNATIONAL)
        elif isinstance(d, ProcDecl):
            if len(d.formals) > MOST_ACTUALS:
                self.fault(d.formal_commas[MOST_ACTUALS - 1], TOO_LONG)
            for sym in d.values:
                for f in d.entity.formals:
                    if f.name == sym.value and f.kind not in VALUE_FORMALS:
                        self.fault(sym, VALUE)
            self.open.add(d.entity)
            self.statement(d.body)
            self.open.discard(d.entity)


def type_faults(program):
    """The faults of types of a program."""
    return Kinds(program).list5()
