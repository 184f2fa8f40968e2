"""Expressions, designational expressions and calls of random programs, as lists of tokens. It makes no statements."""
from model.programs.names import POOL, STANDARD

# The greatest integer.
MAX = 549755813887


class Expressions:
    """What an expression can be made of. `chance` is the source of all choices, and `d` how deep an expression may still go."""

    def likely(self, x):
        """True with the probability x."""
        return self.chance.random() < x

    def hazardous(self, x):
        """A hazardous choice."""
        return self.hazard > 0 and self.likely(x * self.hazard)

    def pick(self, weighted):
        total = sum(w for w, _ in weighted)
        x = self.chance.random() * total
        for w, v in weighted:
            x -= w
            if x < 0:
                return v
        return weighted[-1][1]

    def candidates(self, env, test):
        return [e for e in env.visible().values() if test(e)]

    def name(self, env, pool=POOL, std=True):
        """A name that isn't declared yet in this scope."""
        free = [n for n in pool if n not in env.entries]
        if std and self.likely(0.01):
            free_std = [n for n in STANDARD if n not in env.entries]
            if free_std:
                return self.chance.choice(free_std)
        if free:
            return self.chance.choice(free)
        i = 0
        while 'v%d' % i in env.entries:
            i += 1
        return 'v%d' % i

    def is_standard(self, env, name):
        return env.visible().get(name) is None

    def number(self):
        chance = self.chance
        if self.hazardous(0.02) or self.big and self.likely(0.2):
            return str(chance.choice([MAX, MAX - 1, MAX // 2, 2 ** 38, 2 ** 20,
                                 chance.randrange(MAX), 741455, 741456]))
        if self.likely(0.05):
            return '0' * chance.randrange(1, 3) + str(chance.randrange(10))
        return str(chance.choice([0, 1, 1, 2, 2, 3, 3, 4, 5, 6, 7, 10,
                             chance.randrange(100)]))

    def int_expr(self, env, d):
        """expr of integer type."""
        if d > 0 and self.likely(0.07):
            return (['_if'] + self.bool_expr(env, d - 1) + ['_then'] +
                    self.arith(env, d - 1) + ['_else'] +
                    self.int_expr(env, d - 1))
        return self.arith(env, d)

    def arith(self, env, d):
        out = []
        if self.likely(0.08):
            out.append(self.chance.choice('+--'))
        out += self.term(env, d)
        while d > 0 and self.likely(0.35):
            out.append(self.chance.choice('++-'))
            d -= 1
            out += self.term(env, d)
        return out

    def term(self, env, d):
        out = self.factor(env, d)
        while d > 0 and self.likely(0.15):
            d -= 1
            if self.likely(0.5):
                out.append('_div')
                if self.hazardous(0.05):
                    out += self.factor(env, d)
                elif self.likely(0.8):
                    out.append(str(self.chance.choice([1, 2, 3, 7, 10, 1000])))
                else:
                    out += ['('] + ['-'] + [str(self.chance.randrange(1, 6))] + [')']
            else:
                out.append('*')
                if self.likely(0.75) and not self.hazardous(0.1):
                    out.append(str(self.chance.choice([0, 1, 2, 2, 3])))
                else:
                    out += self.factor(env, d)
        return out

    def factor(self, env, d):
        if d > 0 and self.likely(0.04):
            if self.hazardous(0.15):
                return self.primary(env, d - 1) + ['^'] + self.primary(env, d - 1)
            base = ['2'] if self.likely(0.5) else self.small(env, d - 1)
            out = base + ['^', str(self.chance.choice([1, 2, 2, 3]))]
            if self.likely(0.2):
                out += ['^', str(self.chance.choice([1, 2]))]
            return out
        return self.primary(env, d)

    def small(self, env, d):
        """A primary with a value of at most 3."""
        if self.likely(0.4) or not self.is_standard(env, 'sign'):
            return [str(self.chance.randrange(1, 4))]
        return ['sign', '('] + self.int_expr(env, d) + [')']

    def subscript(self, env, d):
        """Mostly 1 to 3, the places that all arrays have."""
        chance = self.chance
        if self.hazardous(0.015):
            return self.int_expr(env, d)
        loops = self.candidates(env, lambda e: e.locked == 'safe')
        if loops and self.likely(0.3):
            return [chance.choice(loops).name]
        if d > 0 and self.likely(0.2) and self.is_standard(env, 'sign'):
            return ['2', chance.choice('+-'), 'sign', '('] + self.int_expr(env, d - 1) + [')']
        return [str(chance.randrange(1, 4))]

    def element(self, env, type_, d):
        """An array element, or None."""
        arrays = self.candidates(env, lambda e: e.kind in ('array', 'farray') and
                            e.type == type_)
        if not arrays:
            return None
        a = self.chance.choice(arrays)
        n = a.dims
        if a.kind == 'farray' and self.hazardous(0.01):
            n = self.chance.randrange(1, 4)
        out = [a.name, '[']
        for i in range(n):
            if i:
                out.append(',')
            out += self.subscript(env, d - 1)
        return out + [']']

    def variables(self, env, type_, assign=False):
        def good(e):
            if e.kind not in ('var', 'fvalue', 'fname') or e.type != type_:
                return False
            return not assign or not e.locked and e.name != 'fuel' and (e.kind != 'fname' or e.assign)
        return self.candidates(env, good)

    def variable(self, env, type_, d):
        """A variable that may be assigned to, as tokens; or None."""
        if self.likely(0.25):
            out = self.element(env, type_, d)
            if out:
                return out
        v = self.variables(env, type_, True)
        if v:
            return [self.chance.choice(v).name]
        return self.element(env, type_, d)

    def primary(self, env, d):
        what = self.pick([(30, 'number'), (45, 'variable'), (12, 'element'),
                          (10 if d > 0 else 0, 'paren'),
                          (14 if d > 0 else 0, 'call'),
                          (6 if d > 0 else 0, 'std'),
                          (4 if self.input else 1, 'input')])
        if what == 'variable':
            v = self.variables(env, 'integer')
            if v:
                return [self.chance.choice(v).name]
        elif what == 'element':
            out = self.element(env, 'integer', d)
            if out:
                return out
        elif what == 'paren':
            return ['('] + self.int_expr(env, d - 1) + [')']
        elif what == 'call':
            out = self.call(env, 'integer', d - 1)
            if out:
                return out
        elif what == 'std':
            f = self.chance.choice(['abs', 'sign'])
            if self.is_standard(env, f):
                return [f, '('] + self.int_expr(env, d - 1) + [')']
        elif what == 'input':
            f = self.chance.choice(['ininteger', 'inchar', 'inchar'])
            if self.is_standard(env, f) and (f == 'inchar' or self.input):
                return [f]
        if self.big and self.likely(0.15):
            return ['(', '-', str(MAX), '-', '1', ')']
        return [self.number()]

    def bool_expr(self, env, d):
        if d > 0 and self.likely(0.04):
            return (['_if'] + self.bool_expr(env, d - 1) + ['_then'] +
                    self.bool_simple(env, d - 1) + ['_else'] +
                    self.bool_expr(env, d - 1))
        return self.bool_simple(env, d)

    def bool_simple(self, env, d):
        out = self.neg(env, d)
        while d > 0 and self.likely(0.25):
            d -= 1
            out.append(self.pick([(5, '_and'), (5, '_or'), (2, '_impl'),
                                  (2, '_equiv')]))
            out += self.neg(env, d)
        return out

    def neg(self, env, d):
        if self.likely(0.12):
            return ['_not'] + self.rel(env, d)
        return self.rel(env, d)

    def rel(self, env, d):
        if self.likely(0.6):
            return self.arith(env, d - 1) + [self.chance.choice(['<', '<=', '=', '>=', '>', '<>'])] + self.arith(env, d - 1)
        return self.bool_primary(env, d)

    def bool_primary(self, env, d):
        what = self.pick([(1, 'value'), (4, 'variable'), (2, 'element'),
                          (1.5 if d > 0 else 0, 'paren'),
                          (1.5 if d > 0 else 0, 'call')])
        if what == 'variable':
            v = self.variables(env, 'boolean')
            if v:
                return [self.chance.choice(v).name]
        elif what == 'element':
            out = self.element(env, 'boolean', d)
            if out:
                return out
        elif what == 'paren':
            return ['('] + self.bool_expr(env, d - 1) + [')']
        elif what == 'call':
            out = self.call(env, 'boolean', d - 1)
            if out:
                return out
        return [self.chance.choice(['_true', '_false'])]

    def expr(self, env, type_, d):
        return self.int_expr(env, d) if type_ == 'integer' else self.bool_expr(env, d)

    def label_expr(self, env, d):
        if d > 0 and self.likely(0.12):
            return (['_if'] + self.bool_expr(env, d - 1) + ['_then'] +
                    self.label_simple(env, d - 1) + ['_else'] +
                    self.label_expr(env, d - 1))
        return self.label_simple(env, d)

    def label_simple(self, env, d):
        if d > 0 and self.likely(0.1):
            return ['('] + self.label_expr(env, d - 1) + [')']
        if self.likely(0.25):
            s = self.candidates(env, lambda e: e.kind in ('switch', 'fswitch'))
            if s:
                index = ['0'] if self.likely(0.1) else [str(self.chance.randrange(1, 5))] if self.likely(0.6) else self.int_expr(env, d - 1)
                return [self.chance.choice(s).name, '['] + index + [']']
        labels = self.candidates(env, lambda e: e.kind in ('label', 'flabel'))
        near = [e for e in labels if e.name not in ('fin', 'Start')]
        return [self.chance.choice(near if near and self.likely(0.9) else labels).name]

    def call(self, env, type_, d):
        """A call of a procedure of this type (None: none); or None."""
        procs = self.candidates(env, lambda e: e.kind in ('proc', 'fproc') and
                           e.type == type_)
        if not procs:
            return None
        e = self.chance.choice(procs)
        return self.call_of(env, e, d)

    def call_of(self, env, e, d):
        sig = e.sig
        if e.kind == 'fproc' and self.hazardous(0.02):
            return [e.name]
        if not sig:
            if e.kind == 'fproc' and self.hazardous(0.03):
                return [e.name, '('] + self.int_expr(env, 0) + [')']
            return [e.name]
        out = [e.name, '(']
        for i, f in enumerate(sig):
            if i:
                out.append(',')
            a = self.actual(env, f, d, e.kind == 'fproc')
            if a is None:
                return None
            out += a
        if e.kind == 'fproc' and self.hazardous(0.03):
            out += [','] + self.int_expr(env, 0)
        return out + [')']

    def actual(self, env, f, d, of_formal=False):
        chance = self.chance
        if of_formal and self.hazardous(0.03):
            return chance.choice([['{s}'], ['_true'], ['1']])
        if f.kind == 'fvalue':
            out = self.expr(env, f.type, d)
            return self.no_function_alone(env, out, of_formal)
        if f.kind == 'fname':
            if f.assign and not self.hazardous(0.06):
                return self.variable(env, f.type, d)
            c = chance.random()
            if c < 0.4:
                v = self.variables(env, f.type)
                if v:
                    return [chance.choice(v).name]
            elif c < 0.55:
                out = self.element(env, f.type, d)
                if out:
                    return out
            elif c < 0.62:
                v = self.variables(env, f.type)
                if v:
                    return ['(', chance.choice(v).name, ')']
            out = self.expr(env, f.type, d)
            return self.no_function_alone(env, out, of_formal)
        if f.kind == 'flabel':
            return self.label_expr(env, d)
        if f.kind == 'farray':
            c = self.candidates(env, lambda e: e.kind in ('array', 'farray') and
                           e.type == f.type and e.dims == f.dims)
            if not c or self.hazardous(0.04):
                c = self.candidates(env, lambda e: e.kind in ('array', 'farray')
                               and e.type == f.type)
            return [chance.choice(c).name] if c else None
        if f.kind == 'fswitch':
            c = self.candidates(env, lambda e: e.kind in ('switch', 'fswitch'))
            return [chance.choice(c).name] if c else None
        if f.kind == 'fstring':
            c = self.candidates(env, lambda e: e.kind == 'fstring')
            if c and self.likely(0.4):
                return [chance.choice(c).name]
            return [self.string()]
        c = self.candidates(env, lambda e: e.kind in ('proc', 'fproc') and
                       e.type == f.type and e.kinds() == f.kinds())
        if not c or self.hazardous(0.03):
            c = self.candidates(env, lambda e: e.kind in ('proc', 'fproc') and
                           e.type == f.type)
        return [chance.choice(c).name] if c else None

    def no_function_alone(self, env, out, of_formal):
        """A function alone doesn't fit an integer formal in a call of a
        formal procedure; in parentheses it does."""
        if of_formal and len(out) == 1 and not self.hazardous(0.05):
            e = env.visible().get(out[0])
            if e is not None and e.kind in ('proc', 'fproc'):
                return ['('] + out + [')']
        return out

    def string(self):
        chance = self.chance
        out = []
        for _ in range(chance.randrange(0, 7)):
            out.append(chance.choice(['a', 'b', ' ', '+', ';', '_end', '{x}', '{}',
                                 '{{n}}', 'zz', '\n', "'", '!', ':=', '.']))
        return '{' + ''.join(out) + '}'
