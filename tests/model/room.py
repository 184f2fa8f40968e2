"""How many words of working store each expression, statement and activation needs."""
from model.scope import PROC_FORMALS, PROCEDURES, SWITCH, SWITCH_FORMAL, VALUE_FORMALS, declared_in
from model.tree import (ArrayDecl, Assign, Binary, Call, CallStatement, Compound, Conditional, For, Goto, If, Index,
                        Paren, Unary)


def need(e):
    """need of an expression."""
    if e.need is not None:
        return e.need
    if isinstance(e, Binary):
        a, b = need(e.left), 1 + need(e.right)
        n = a if a > b else b
    elif isinstance(e, (Paren, Unary)):
        n = need(e.inner)
    elif isinstance(e, Conditional):
        n = max(need(e.test), need(e.yes), need(e.no))
    elif isinstance(e, Index):
        if e.ident.entity.kind in (SWITCH, SWITCH_FORMAL):
            n = need(e.parts[0])
        else:
            n = 1 + len(e.parts)
            for i, part in enumerate(e.parts):
                n = max(n, i + 1 + need(part))
    elif isinstance(e, Call):
        entity = e.ident.entity
        if entity.kind in PROC_FORMALS:
            n = 2 * len(e.parts)
        elif entity.kind in PROCEDURES:
            n = 2 * len(e.parts)
            for i, (formal, part) in enumerate(zip(entity.formals, e.parts)):
                if formal.kind in VALUE_FORMALS:
                    n = max(n, 2 * i + need(part))
        else:
            n = need(e.parts[0])
    else:
        n = 0
    e.need = n
    return n


def segment_need(s):
    n = len(s.bounds)
    for i, e in enumerate(s.bounds):
        n = max(n, i + need(e))
    return n


def statement_need(s):
    """need of a statement for what surrounds it."""
    if s.need is not None:
        return s.need
    n = 0
    if isinstance(s, Compound):
        for t in s.statements:
            n = max(n, statement_need(t))
    elif isinstance(s, Assign):
        n = len(s.lefts) + need(s.right)
        for i, (left, _) in enumerate(s.lefts):
            n = max(n, i + need(left))
    elif isinstance(s, Goto):
        n = need(s.target)
    elif isinstance(s, CallStatement):
        n = need(s.call)
    elif isinstance(s, If):
        n = max(need(s.test), statement_need(s.yes))
        if s.no is not None:
            n = max(n, statement_need(s.no))
    elif isinstance(s, For):
        n = statement_need(s.body)
        for e in s.elements:
            if e.kind == "step":
                a, b, c = e.parts
                n = max(n, 1 + need(a), 1 + need(c), 2 + need(b))
            elif e.kind == "while":
                n = max(n, 1 + need(e.parts[0]), need(e.parts[1]))
            else:
                n = max(n, 1 + need(e.parts[0]))
        n += 1
    s.need = n
    return n


def block_need(b):
    """A block's own need: the greatest over its segments and statements."""
    n = 0
    for d in b.decls:
        if isinstance(d, ArrayDecl):
            for s in d.segments:
                n = max(n, segment_need(s))
    for s in b.statements:
        n = max(n, statement_need(s))
    return n


def block_header(b):
    """The room of a block without need."""
    room = 3
    for e in declared_in(b):
        if e.kind in (1, 2):
            room += 1
        elif e.kind in (3, 4):
            room += 2 + 2 * e.count
    return room
