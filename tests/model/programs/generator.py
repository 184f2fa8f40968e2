"""Whole random programs: the tokens of one, its spelling, and its data."""
import random

from model.programs.declarations import Declarations
from model.programs.expressions import MAX
from model.programs.names import LABELS, POOL, Entry, Env


class Generator(Declarations):
    """A random program of the language, the same for the same seed and settings.

    `size` is about the number of statements in a list, `depth` how deep things nest, `hazard` (0 to 3) how often alarms and long
    runs are provoked, `spelling` is plain, quoted or any, and `comments` says whether there are any. A program has no error, and
    ends, alarms or lacks steps. The variable `fuel` and the function `ok` keep most runs short: each body of a procedure and each
    go to is guarded by them, with a small probability that it isn't."""

    def __init__(self, seed, size=8, depth=3, hazard=1, spelling='any',
                 comments=True):
        self.seed = seed
        self.chance = random.Random('gier%s' % (seed,))
        self.size, self.depth, self.hazard = size, depth, hazard
        self.spelling, self.comments = spelling, comments
        self.budget = 40 + 25 * size
        self.big = hazard > 0 and self.likely(0.08 * hazard)
        self.input = self.likely(0.4)        # whether ininteger is used often
        self.functions = []             # names of enclosing functions' entries
        self.text = None

    def tokens(self):
        env = Env(None)
        for n in ('fuel', 'ok', 'gs', 'ga', 'gb', 'gc', 'fin'):
            assert n not in POOL and n not in LABELS
        labels = ['Start', ':'] if self.likely(0.1) else []
        if labels:
            env.add(Entry('Start', 'label'))
        body = self.block(env, self.depth, self.size, 'program')
        if self.likely(0.1):
            body = ['_begin'] + body + ([';', 'outcr'] if self.likely(0.5) else []) + ['_end']
        return labels + body

    def render(self, tokens):
        chance = self.chance
        quoted = self.spelling == 'quoted' or self.spelling == 'any' and self.likely(0.1)
        pnew = chance.choice([0.02, 0.1, 0.25])
        out = ['!'] if quoted else []
        word = (lambda w: "'%s'" % w[1:].upper()) if quoted else (lambda w: w)
        for i, t in enumerate(tokens):
            is_word = t[0] == '_' and t != '_'
            if t == ',' and self.comments and self.likely(0.04):
                out.append(chance.choice([') and: (', ')x y:(', ')\nThen :\n(']))
            elif is_word:
                out.append(word(t))
            elif self.comments and len(t) > 2 and t[0].isalpha() and self.likely(0.03):
                out.append(t[:2] + chance.choice([' ', '\n', '\t']) + t[2:])
            else:
                out.append(t)
            nxt = tokens[i + 1] if i + 1 < len(tokens) else ''
            if self.comments and t in (';', '_begin') and self.likely(0.03):
                out.append(' ' + word('_comment') +
                           chance.choice([' note', '', ' {', '\n_end ', ' !x\n']) +
                           ';')
            if self.comments and t == '_end' and self.likely(0.15):
                out.append(chance.choice([' of it', ' loop {', '\n.. _begin x\n',
                                     ' _comment', ' }', ' 12 "']))
                if out[-1].endswith('_comment') and nxt[:1].islower():
                    out.append(' ')
            if is_word and nxt[:1].isalpha():
                out.append(' ')
            c = chance.random()
            if c < pnew:
                out.append('\n')
            elif c < pnew + 0.3:
                out.append(' ')
        return ''.join(out)

    def data(self):
        chance = self.chance
        out = []
        for _ in range(chance.choice([0, 3, 10, 40, 80])):
            x = str(chance.choice([chance.randrange(10), chance.randrange(1000), 1, 2,
                              MAX if self.hazard else 3]))
            if self.likely(0.2):
                x = chance.choice('-+') + x
            if self.hazardous(0.02):
                x = chance.choice(['x', '-', '549755813888', '-549755813889', '+',
                              '99999999999999999'])
            out.append(x)
            out.append(chance.choice([' ', ', ', '\n', ';', ' \t']))
        return ''.join(out)

    def tape(self):
        if self.text is None:
            text = self.render(self.tokens()).encode('latin-1')
            rest = self.data().encode('latin-1')
            if rest or self.likely(0.5):
                text += b'#' + rest
            self.text = text
        return self.text
