"""Declarations, procedures and blocks of random programs, as lists of tokens."""
from model.programs.names import LABELS, STANDARD, Entry, Env
from model.programs.statements import Statements


class Declarations(Statements):
    """Plans the declarations of a block first, so that all of it can use them, and writes them afterwards."""

    def idents(self, names):
        out = []
        for i, n in enumerate(names):
            if i:
                out.append(',')
            out.append(n)
        return out

    def bound_pair(self, outer, own):
        """Contains 1 to 3.  `outer` is the environment around the block."""
        chance = self.chance
        if own:
            lo = chance.choice([['1'], ['0'], ['-', '1'], ['+', '1']])
            return lo + [':', str(chance.randrange(3, 5))]
        if self.hazardous(0.01):
            return self.int_expr(outer, 1) + [':'] + self.int_expr(outer, 1)
        lo = chance.choice([['1'], ['1'], ['0'], ['-', '2'], ['1', '-', '1']])
        hi = chance.choice([['3'], ['3'], ['4'], ['2', '+', '1']])
        if self.likely(0.25) and self.is_standard(outer, 'sign'):
            lo = ['sign', '('] + self.int_expr(outer, 1) + [')']
        if self.likely(0.25) and self.is_standard(outer, 'abs') and self.is_standard(outer, 'sign'):
            hi = ['3', '+', 'abs', '(', 'sign', '('] + self.int_expr(outer, 1) + [')', ')']
        return lo + [':'] + hi

    def visible_outside(self, env, outer):
        """`outer` without what the block hides: safe names for bounds."""
        shadow = Env(None)
        for name, e in outer.visible().items():
            if name not in env.entries:
                shadow.add(e)
            elif name in STANDARD:
                pass
        for name in env.entries:
            if name in STANDARD:
                shadow.add(Entry(name, 'hidden'))
        return shadow

    def declare_types(self, env, own=False):
        type_ = self.chance.choice(['integer', 'integer', 'boolean'])
        names = []
        for _ in range(self.chance.randrange(1, 4)):
            n = self.name(env)
            env.add(Entry(n, 'var', type_))
            names.append(n)
        return (['_own'] if own else []) + ['_' + type_] + self.idents(names)

    def plan_array(self, env, own=False):
        """Declares the names; the bounds are written later."""
        type_ = self.chance.choice(['integer', 'integer', 'boolean'])
        segments = []
        for _ in range(self.pick([(4, 1), (1, 2)])):
            dims = self.pick([(5, 1), (3, 2), (1, 3)])
            names = []
            for _ in range(self.pick([(3, 1), (1, 2)])):
                n = self.name(env)
                env.add(Entry(n, 'array', type_, dims))
                names.append(n)
            segments.append((names, dims))
        return 'array', type_, segments, own

    def write_array(self, plan, inner, outer):
        _, type_, segments, own = plan
        out = (['_own'] if own else []) + ['_' + type_, '_array']
        safe = self.visible_outside(inner, outer)
        for i, (names, dims) in enumerate(segments):
            if i:
                out.append(',')
            out += self.idents(names) + ['[']
            for j in range(dims):
                if j:
                    out.append(',')
                out += self.bound_pair(safe, own)
            out.append(']')
        return out

    def signature(self, env):
        """Formals of a new procedure."""
        sig = []
        taken = Env(None)
        count = self.pick([(4, 0), (5, 1), (4, 2), (2, 3), (1, 4),
                           (0.6, self.chance.randrange(9, 23))])
        for _ in range(count):
            kind = self.pick([(8, 'fvalue'), (9, 'fname'), (2, 'flabel'),
                              (3, 'farray'), (1, 'fswitch'), (2, 'fstring'),
                              (5, 'fproc')])
            name = self.name(taken)
            if name in STANDARD:
                name = 'x%d' % self.chance.randrange(3, 9)
                if name in taken.entries:
                    continue
            type_ = self.chance.choice(['integer', 'integer', 'integer',
                                   'boolean'])
            f = Entry(name, kind, type_)
            if kind == 'fname':
                f.assign = self.likely(0.5)
            elif kind == 'farray':
                f.dims = self.pick([(5, 1), (2, 2), (1, 3)])
            elif kind in ('flabel', 'fswitch', 'fstring'):
                f.type = None
            elif kind == 'fproc':
                like = self.candidates(env, lambda e: e.kind == 'proc')
                if not like:
                    continue
                e = self.pick([(1 + 3 * len(x.sig), x) for x in like])
                f.type, f.sig = e.type, e.sig
            taken.add(f)
            sig.append(f)
        return sig

    def plan_procedure(self, env):
        type_ = self.pick([(5, None), (4, 'integer'), (2, 'boolean')])
        n = self.name(env)
        e = Entry(n, 'proc', type_, sig=self.signature(env))
        env.add(e)
        return 'proc', e

    def write_procedure(self, e, env, d):
        out = ['_' + e.type] if e.type else []
        out += ['_procedure', e.name]
        inner = Env(env)
        if e.sig:
            out += ['('] + self.idents([f.name for f in e.sig]) + [')']
        out.append(';')
        for f in e.sig:
            inner.add(f)
        values = [f.name for f in e.sig if f.kind == 'fvalue']
        if values:
            self.chance.shuffle(values)
            out += ['_value'] + self.idents(values) + [';']
        specs = {}
        order = []
        for f in e.sig:
            word = {'fvalue': 0, 'fname': 0}.get(f.kind)
            if word == 0:
                key = ('_' + f.type,)
            elif f.kind == 'farray':
                key = ('_' + f.type, '_array')
            elif f.kind == 'fproc':
                key = ('_' + f.type, '_procedure') if f.type else ('_procedure',)
            else:
                key = ('_' + f.kind[1:],)
            if key not in specs or self.likely(0.3):
                order.append((key, []))
                specs[key] = order[-1][1]
            specs[key].append(f.name)
        self.chance.shuffle(order)
        for key, names in order:
            out += list(key) + self.idents(names) + [';']
        return out + self.proc_body(e, inner, d)

    def proc_body(self, e, inner, d):
        if e.type:
            self.functions.append(e)
        locked = [(x, x.locked) for x in inner.parent.visible().values()
                  if x.locked]
        for x, _ in locked:
            x.locked = False
        for f in e.sig:
            if inner.visible().get('fuel') is f or inner.visible().get('ok') is f:
                raise AssertionError
        shape = self.pick([(3, 'guard'), (4, 'block'), (2, 'simple')])
        own = e.type and inner.visible().get(e.name) is e
        result = [e.name, ':='] + self.expr(inner, e.type, 1) if own else []
        if shape == 'simple':
            out = result if own else self.make_out(inner, 0)
            if self.likely(0.4) and not own:
                out = self.statement(inner, 0)
            out = out or []
        elif shape == 'guard':
            n = self.chance.randrange(1, 4)
            for _ in range(self.pick([(5, 0), (2, 1), (1, 2)])):
                name = self.name(inner, LABELS, False)
                inner.add(Entry(name, 'label'))
                inner.pending.append(name)
            body = self.use_formals(e, inner) + self.statements(inner, n, d - 1)
            if own:
                body += [';'] + result
            for name in inner.pending:
                body += [';', name, ':'] + (self.make_out(inner, 0) or [])
            inner.pending = []
            if self.hazardous(0.02):
                out = ['_begin'] + body + ['_end']
            else:
                out = ['_if', 'ok', '_then', '_begin'] + body + ['_end']
        else:
            self.current = e
            inside = self.block(inner, d - 1, self.chance.randrange(1, 4), 'body',
                                e if own else None)
            out = inside if self.hazardous(0.02) else ['_if', 'ok', '_then'] + inside
            if self.likely(0.3):
                name = self.name(inner, LABELS, False)
                if name not in inner.visible() and name not in STANDARD:
                    out = [name, ':'] + out
        for x, how in locked:
            x.locked = how
        if e.type:
            self.functions.pop()
        return out

    def use_formals(self, e, env):
        """Statements that use formals of `e` that are still visible."""
        out = []
        for f in e.sig:
            if env.visible().get(f.name) is not f or self.likely(0.4):
                continue
            part = None
            if f.kind == 'fname' and f.assign:
                part = [f.name, ':='] + (self.tame(env) if f.type == 'integer'
                     else self.bool_expr(env, 1))
            elif f.kind == 'fproc':
                part = self.call_of(env, f, 1)
            elif f.kind == 'flabel' and self.likely(0.5):
                part = ['_begin', '_if', 'ok', '_and'] + self.neg(env, 1) + ['_then', '_goto', f.name, '_end']
            elif f.kind in ('fname', 'fvalue') and f.type == 'integer' and self.is_standard(env, 'outinteger'):
                part = ['outinteger', '(', f.name, ')']
            elif f.kind == 'fstring' and self.is_standard(env, 'outtext'):
                part = ['outtext', '(', f.name, ')']
            if part:
                out += part + [';']
        return out

    def block(self, env, d, n, role, function=None):
        """A block inside `env` with about n statements."""
        inner = Env(env)
        chance = self.chance
        plans = []
        if role == 'program':
            inner.add(Entry('fuel', 'var', 'integer')).locked = False
            inner.add(Entry('ok', 'proc', 'boolean'))
            inner.add(Entry('gs', 'switch'))
            inner.add(Entry('ga', 'array', 'integer', 1))
            inner.add(Entry('gb', 'array', 'integer', 2))
            inner.add(Entry('gc', 'array', 'boolean', 1))
            inner.add(Entry('fin', 'label'))
        for _ in range(chance.randrange(1, 4)):
            what = self.pick([(8, 'type'), (1.5, 'own'), (4, 'array'),
                              (1, 'ownarray'), (1.5, 'switch'),
                              (7 if d > 0 and self.budget > 0 else 0,
                               'proc')])
            if what in ('type', 'own'):
                plans.append(('tokens', self.declare_types(inner,
                                                           what == 'own')))
            elif what in ('array', 'ownarray'):
                plans.append(self.plan_array(inner, what == 'ownarray'))
            elif what == 'switch':
                e = inner.add(Entry(self.name(inner), 'switch'))
                plans.append(('switch', e))
            else:
                plans.append(self.plan_procedure(inner))
        if role == 'program':
            for _ in range(chance.randrange(1, 4)):
                plans.append(self.plan_procedure(inner))
            plans.insert(0, ('tokens', self.declare_types(inner)))
        for _ in range(self.pick([(5, 0), (3, 1), (1, 2), (1, 3)])):
            name = self.name(inner, LABELS)
            inner.add(Entry(name, 'label'))
            inner.pending.append(name)
        chance.shuffle(plans)
        current = getattr(self, 'current', None)
        out = ['_begin']
        if role == 'program':
            out += ['_integer', 'fuel', ';', '_integer', '_array', 'ga', '[',
                    '0', ':', '4', ']', ',', 'gb', '[', '1', ':', '3', ',',
                    '0', ':', '3', ']', ';', '_boolean', '_array', 'gc', '[',
                    '1', ':', '3', ']', ';', '_switch', 'gs', ':=', 'fin',
                    ';', '_boolean', '_procedure', 'ok', ';', '_begin',
                    'fuel', ':=', 'fuel', '-', '1', ';', 'ok', ':=', 'fuel',
                    '>', '0', '_end', ';']
        for plan in plans:
            if plan[0] == 'tokens':
                out += plan[1]
            elif plan[0] == 'array':
                out += self.write_array(plan, inner, env)
            elif plan[0] == 'switch':
                out += ['_switch', plan[1].name, ':=']
                for i in range(chance.randrange(1, 4)):
                    if i:
                        out.append(',')
                    out += self.switch_element(inner, plan[1])
            else:
                out += self.write_procedure(plan[1], inner, d - 1)
            out.append(';')
        if role == 'program':
            out += ['fuel', ':=', str(chance.choice([5, 20, 40, 60, 100])), ';']
        if role == 'body':
            out += self.use_formals(current, inner)
        out += self.statements(inner, 2 * n + 2 if role == 'program' else n,
                               d)
        if function is not None and inner.visible().get(function.name) is function:
            out += [';', function.name, ':='] + self.expr(inner, function.type, 1)
        for name in inner.pending:
            out += [';', name, ':'] + (self.make_out(inner, 0) or [])
        inner.pending = []
        if role == 'program':
            out += [';', 'fin', ':']
        return out + ['_end']

    def switch_element(self, env, me):
        for _ in range(10):
            out = self.label_expr(env, 1)
            if me.name not in out or self.hazardous(0.05):
                return out
        return ['fin']
