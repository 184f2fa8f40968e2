"""The names of random programs, and what is declared under them. It makes no text.

Names come from a small pool, so that scopes hide each other's identifiers."""

STANDARD = ('outinteger', 'outtext', 'outcr', 'outchar', 'ininteger', 'inchar', 'abs', 'sign')
POOL = ('a', 'b', 'c', 'd', 'e', 'f', 'g', 'h', 'i', 'j', 'k', 'm', 'n', 'p', 'q', 'r', 's', 't', 'u', 'v', 'w', 'x', 'y', 'z',
        'A', 'B', 'C', 'x1', 'x2', 'longname', 'Z9', 'abc', 'next')
LABELS = ('L', 'M', 'N', 'K', 'L1', 'L2', 'L3', 'loop', 'out', 'back', 'lab', 'T', 'R', 'Q', 'E1', 'E2')


class Entry:
    """What is declared under a name. `kind` is var, array, switch, proc or label, or one of the formals fvalue, fname, farray,
    fswitch, fproc, flabel and fstring; `type` is integer, boolean or None; `dims` counts subscripts, `sig` has the formals
    of a procedure, and `assign` tells of a formal by name that the body assigns to. `locked` keeps loops from changing
    their variable."""

    def __init__(self, name, kind, type_=None, dims=0, sig=None, assign=False):
        self.name, self.kind, self.type = name, kind, type_
        self.dims, self.sig, self.assign = dims, sig or [], assign
        self.locked = False

    def kinds(self):
        """Of each formal its kind as far as a call of a formal procedure compares it: by value and by name are one kind there."""
        return [({'fvalue': 'e', 'fname': 'e'}.get(f.kind, f.kind), f.type) for f in self.sig]


class Env:
    """A scope; `pending` are its labels that are still to be placed."""

    def __init__(self, parent):
        self.parent = parent
        self.entries = {}
        self.pending = []

    def add(self, entry):
        self.entries[entry.name] = entry
        return entry

    def visible(self):
        """Each name that can be used here, with its entry."""
        out = dict(self.parent.visible()) if self.parent else {}
        out.update(self.entries)
        return out
