"""Statements of random programs, as lists of tokens. It makes no declarations; `block` comes from the class below."""
from model.programs.expressions import MAX, Expressions
from model.programs.names import LABELS, Entry, Env


class Statements(Expressions):
    """Go to statements and most loops are guarded by the function `ok`, so that few programs run long."""

    def statements(self, env, n, d):
        out = []
        for i in range(n):
            if i:
                out.append(';')
            out += self.statement(env, d)
        return out

    def place(self, env):
        """Perhaps a pending label of this scope, as tokens."""
        out = []
        while env.pending and self.likely(0.3):
            out += [env.pending.pop(self.chance.randrange(len(env.pending))), ':']
        return out

    def statement(self, env, d, after_then=False):
        self.budget -= 1
        labels = self.place(env)
        return labels + self.unlabelled(env, d, after_then)

    def unlabelled(self, env, d, after_then):
        tight = self.budget < 0 or d <= 0
        what = self.pick([
            (26, 'assign'), (18, 'out'), (26, 'call'), (5, 'goto'),
            (1.5, 'dummy'), (1, 'drop'),
            (0 if tight or after_then else 12, 'if'),
            (0 if tight else 10, 'for'),
            (0 if tight else 6, 'compound'),
            (0 if tight else 6, 'block')])
        return getattr(self, 'make_' + what)(env, d) or self.make_out(env, d)

    def make_assign(self, env, d):
        type_ = 'integer' if self.likely(0.75) else 'boolean'
        out = []
        for _ in range(self.pick([(8, 1), (2, 2), (1, 3)])):
            own = [e for e in self.functions if e.type == type_ and
                   env.visible().get(e.name) is e]
            if own and self.likely(0.25):
                left = [self.chance.choice(own).name]
            else:
                left = self.variable(env, type_, 2)
            if left is None:
                return None
            out += left + [':=']
        if type_ == 'integer' and self.hazard < 3 and self.likely(0.5):
            return out + self.tame(env)
        return out + self.expr(env, type_, self.chance.randrange(0, 4))

    def tame(self, env):
        """An integer expression that can hardly spill."""
        e = self.arith(env, 2)
        return ['('] + e + [')', '_div', str(self.chance.choice([1, 2, 3, 10]))]

    def make_out(self, env, d):
        c = self.chance.random()
        if c < 0.6 and self.is_standard(env, 'outinteger'):
            return ['outinteger', '('] + self.int_expr(env, 2) + [')']
        if c < 0.75 and self.is_standard(env, 'outtext'):
            strings = self.candidates(env, lambda e: e.kind == 'fstring')
            a = self.chance.choice(strings).name if strings and self.likely(0.7) else self.string()
            return ['outtext', '(', a, ')']
        if c < 0.85 and self.is_standard(env, 'outcr'):
            return ['outcr']
        if self.is_standard(env, 'outchar') and self.is_standard(env, 'abs'):
            if self.hazardous(0.03):
                return ['outchar', '('] + self.int_expr(env, 1) + [')']
            return ['outchar', '(', str(self.chance.randrange(32, 127)), ')']
        return []

    def make_drop(self, env, d):
        f = self.chance.choice(['abs', 'sign', 'ininteger', 'inchar', 'inchar'])
        if not self.is_standard(env, f):
            return []
        if f in ('abs', 'sign'):
            return [f, '('] + self.int_expr(env, 2) + [')']
        if f == 'ininteger' and not self.hazardous(0.2):
            return []
        return [f]

    def make_dummy(self, env, d):
        return []

    def make_call(self, env, d):
        for _ in range(3):
            type_ = self.pick([(6, None), (2, 'integer'), (1, 'boolean')])
            out = self.call(env, type_, 2)
            if out:
                return out
        return None

    def make_goto(self, env, d):
        if self.hazardous(0.02):
            return ['_goto'] + self.label_expr(env, 2)
        test = ['ok']
        if self.likely(0.7):
            test += ['_and'] + self.neg(env, 1)
        if self.likely(0.5):
            return ['_goto', '_if'] + test + ['_then'] + self.label_simple(env, 2) + ['_else', 'gs', '[', '0', ']']
        body = ['_goto'] + self.label_expr(env, 2)
        return ['_begin', '_if'] + test + ['_then'] + body + ['_end']

    def make_if(self, env, d):
        out = ['_if'] + self.bool_expr(env, 2) + ['_then']
        first = self.statement(env, d - 1, True)
        out += first
        if not self.is_for(first) and self.likely(0.5):
            out += ['_else'] + self.statement(env, d - 1)
        return out

    @staticmethod
    def is_for(tokens):
        i = 0
        while i + 1 < len(tokens) and tokens[i + 1] == ':':
            i += 2
        return i < len(tokens) and tokens[i] == '_for'

    def make_compound(self, env, d):
        return ['_begin'] + self.statements(env, self.chance.randrange(1, 4),
                                            d - 1) + ['_end']

    def make_for(self, env, d):
        v = [e for e in self.variables(env, 'integer', True)]
        if not v:
            return None
        e = self.chance.choice(v)
        i = e.name
        out = ['_for', i, ':=']
        for k in range(self.pick([(6, 1), (2, 2), (1, 3)])):
            if k:
                out.append(',')
            out += self.for_element(env, i)
        safe = not any(t.startswith('_') and t not in ('_step', '_until') or
                       t[0].isalpha() and t != i or t == '0' or len(t) > 1 and
                       t.isdigit() or t == '(' for t in out[3:]) and all(t in (i, ',', '-', '_step', '_until') or t in '123'
                for t in out[3:])
        inner = Env(env)
        lock = e.kind == 'var' and self.likely(0.9)
        if lock:
            e.locked = 'safe' if safe else 'loop'
        if self.likely(0.2):
            for _ in range(self.chance.randrange(1, 3)):
                name = self.name(inner, LABELS)
                inner.add(Entry(name, 'label'))
                inner.pending.append(name)
        body = self.statement(inner, d - 1)
        if inner.pending:
            body = ['_begin'] + body
            for name in inner.pending:
                body += [';', name, ':'] + self.make_out(inner, 0)
            inner.pending = []
            body.append('_end')
        if lock:
            e.locked = False
        return out + ['_do'] + body

    def for_element(self, env, i):
        chance = self.chance
        c = chance.random()
        if c < 0.35:
            return self.int_expr(env, 1) if self.likely(0.5) else [str(chance.randrange(1, 4))]
        if c < 0.8:
            if self.hazardous(0.02):
                return self.int_expr(env, 1) + ['_step'] + self.int_expr(env, 1) + ['_until'] + self.int_expr(env, 1)
            if self.hazardous(0.02):
                big = str(MAX)
                return chance.choice([
                    [str(MAX - 1), '_step', '1', '_until', big],
                    ['-', str(MAX - 1), '_step', '-', '1', '_until', '-',
                     big, '-', '1'],
                    ['-', '5', '_step', '1', '_until', big],
                    ['-', '1', '_step', '-', '1', '_until', big],
                    ['-', '1', '_step', '0', '_until', big]])
            lo, hi = chance.randrange(1, 3), chance.randrange(1, 4)
            step = ['1']
            if self.likely(0.15):
                step = chance.choice([['2'], ['3 ', '-', '2'], ['i0']])
                if step == ['i0']:
                    step = ['1', '+', '0', '*'] + self.small(env, 1)
            if self.likely(0.25):
                return [str(hi), '_step', '-', '1', '_until', str(lo)]
            upper = [str(hi)]
            if self.likely(0.2):
                upper = ['2', '+'] + self.small(env, 1)
            return [str(lo), '_step'] + [x.strip() for x in step] + ['_until'] + upper
        if self.likely(0.5):
            return [i, '+', '1', '_while', i, '<', str(chance.randrange(0, 4)),
                    '_and', 'ok']
        return self.int_expr(env, 1) + ['_while', 'ok', '_and'] + self.neg(env, 1)

    def make_block(self, env, d):
        return self.block(env, d, self.chance.randrange(1, 4), 'block')
