"""The grammar of the language as data, and a recogniser that is right by construction but slow.

`TEXT` is the grammar, `rules` reads it into plain productions, and `earley` tells where a list of symbols stops being the
beginning of a program. After `_then` stands no `_if`, and no `_else` behind a for statement: that is so by the rules `cond`
and `uncond`. An own array has at most 30 bound pairs, which are written out by nesting."""
import re

from model.lexer import SIGNS, WORDS

TEXT = r'''
program     = { ident ":" } ( block | compound )
block       = "_begin" declaration ";" { declaration ";" } statements "_end"
compound    = "_begin" statements "_end"
statements  = statement { ";" statement }
declaration = [ "_own" ] type idents
            | type "_array" segment { "," segment }
            | "_own" type "_array" fixed { "," fixed }
            | "_switch" ident ":=" expr { "," expr }
            | [ type ] "_procedure" ident [ "(" idents ")" ] ";"
              [ "_value" idents ";" ] { spec idents ";" } statement
type        = "_integer" | "_boolean"
idents      = ident { "," ident }
segment     = idents "[" bound { "," bound } "]"
bound       = expr ":" expr
fixed       = idents "[" pair @PAIRS@ "]"
pair        = const ":" const
const       = [ "+" | "-" ] number
spec        = type | type "_array" | "_label" | "_switch" | "_string"
            | "_procedure" | type "_procedure"
statement   = uncond | cond | for
uncond      = { ident ":" } ( block | compound | assign | goto | call | nothing )
cond        = { ident ":" } "_if" expr "_then"
              ( uncond [ "_else" statement ] | for )
for         = { ident ":" } "_for" ident ":=" element { "," element } "_do" statement
element     = expr | expr "_step" expr "_until" expr | expr "_while" expr
assign      = left ":=" { left ":=" } expr
left        = ident [ "[" expr { "," expr } "]" ]
goto        = "_goto" expr
call        = ident [ "(" actual { "," actual } ")" ]
actual      = expr | string
expr        = simple | "_if" expr "_then" simple "_else" expr
simple      = impl { "_equiv" impl }
impl        = disj { "_impl" disj }
disj        = conj { "_or" conj }
conj        = neg { "_and" neg }
neg         = [ "_not" ] rel
rel         = arith [ ( "<" | "<=" | "=" | ">=" | ">" | "<>" ) arith ]
arith       = [ "+" | "-" ] term { ( "+" | "-" ) term }
term        = factor { ( "*" | "_div" ) factor }
factor      = primary { "^" primary }
primary     = number | "_true" | "_false" | "(" expr ")" | call
            | ident "[" expr { "," expr } "]"
'''.replace("@PAIRS@", '[ "," pair ' * 29 + "] " * 29)

TERMINALS = {'"%s"' % sign: tag for sign, tag in SIGNS.items()}
TERMINALS.update({'"_%s"' % word: tag for word, tag in WORDS.items()})
NAMED = {"ident": (3,), "number": (4,)}


def tokens_of(text):
    return re.findall(r'"[^"]*"|[A-Za-z_]\w*|[={}\[\]()|]', text)


class Reader:
    """Reads the notation of `TEXT` into productions name -> list of bodies.

    A body is a tuple whose parts are tags (int) and rule names (str)."""

    def __init__(self, text, named=NAMED):
        self.tokens = tokens_of(text)
        self.at = 0
        self.rules = {}
        self.fresh = 0
        self.named = named
        while self.at < len(self.tokens):
            name = self.tokens[self.at]
            assert self.tokens[self.at + 1] == "=", self.tokens[self.at:self.at + 5]
            self.at += 2
            self.rules[name] = self.choice()
        if "nothing" not in self.rules:
            self.rules["nothing"] = [()]
        if "string" not in self.rules:
            self.rules["string"] = [(5, "string bytes", 7)]
            self.rules["string bytes"] = [(), ("string bytes", 6)]

    def peek(self):
        return self.tokens[self.at] if self.at < len(self.tokens) else None

    def starts_rule(self):
        return self.at + 1 < len(self.tokens) and self.tokens[self.at + 1] == "="

    def new(self, bodies):
        self.fresh += 1
        name = "#%d" % self.fresh
        self.rules[name] = bodies
        return name

    def choice(self):
        bodies = [self.sequence()]
        while self.peek() == "|":
            self.at += 1
            bodies.append(self.sequence())
        return bodies

    def sequence(self):
        body = []
        while True:
            t = self.peek()
            if t is None or t in "|)]}" or self.starts_rule():
                return tuple(body)
            self.at += 1
            if t in "([{":
                inner = self.choice()
                close = self.tokens[self.at]
                self.at += 1
                assert close == {"(": ")", "[": "]", "{": "}"}[t]
                if t == "(":
                    body.append(self.new(inner))
                elif t == "[":
                    body.append(self.new([()] + inner))
                else:
                    group = self.new(inner)
                    loop = self.new([()])
                    self.rules[loop].append(self.repeat(loop, group))
                    body.append(loop)
            elif t.startswith('"'):
                body.append(TERMINALS[t])
            elif t in self.named:
                body.extend(self.named[t])
            else:
                body.append(t)

    @staticmethod
    def repeat(loop, group):
        return (loop, group)          # left recursion, which suits Earley


def rules():
    return Reader(TEXT).rules


def earley(tags, productions=None, start="program"):
    """Index of the first tag with which the list is no prefix of a spelling of
    `start`; len(tags) where every prefix is one but the whole is none; None
    where the whole is a spelling.  `tags` has no end symbol."""
    g = productions or rules()
    nullable = set()
    changed = True
    while changed:
        changed = False
        for name, bodies in g.items():
            if name not in nullable and any(
                    all(isinstance(x, str) and x in nullable for x in b) for b in bodies):
                nullable.add(name)
                changed = True
    # item: (name, body, dot, origin)
    waiting = []                      # per set: rule name -> items that wait for it
    current = {(start, b, 0, 0) for b in g[start]}
    finished = False
    for i in range(len(tags) + 1):
        wait = {}
        waiting.append(wait)
        todo = list(current)
        seen = set(current)
        scan = {}
        finished = False
        while todo:
            item = todo.pop()
            name, body, dot, origin = item
            if dot == len(body):
                if name == start and origin == 0:
                    finished = True
                for n2, b2, d2, o2 in list(waiting[origin].get(name, ())):
                    new = (n2, b2, d2 + 1, o2)
                    if new not in seen:
                        seen.add(new)
                        todo.append(new)
                continue
            x = body[dot]
            if isinstance(x, int):
                scan.setdefault(x, []).append((name, body, dot + 1, origin))
                continue
            if x not in wait:
                wait[x] = []
                for b in g[x]:
                    new = (x, b, 0, i)
                    if new not in seen:
                        seen.add(new)
                        todo.append(new)
            wait[x].append(item)
            if x in nullable:
                new = (name, body, dot + 1, origin)
                if new not in seen:
                    seen.add(new)
                    todo.append(new)
        if i == len(tags):
            return None if finished else i
        current = set(scan.get(tags[i], ()))
        if not current:
            return i
    return None
