"""Where the fault `structure` stands, found by a predictive recogniser in linear time.

`LL_TEXT` is the grammar of grammar.py with common beginnings factored out. The table is computed from it, with a check that no
cell has two productions. The recogniser keeps on its stack a rest that ends what was read to a program, so each list that it
has taken is the beginning of one; and it refuses a symbol only where no program goes on with it. The tests compare it with
`grammar.earley`."""
from model.grammar import Reader

LL_TEXT = r'''
program     = { ident ":" } begin
begin       = "_begin" { declaration ";" } statements "_end"
statements  = statement { ";" statement }
declaration = type typed | "_switch" ident ":=" expr { "," expr }
            | "_procedure" proc | "_own" type owned
typed       = idents | "_array" segment { "," segment } | "_procedure" proc
owned       = idents | "_array" fixed { "," fixed }
proc        = ident [ "(" idents ")" ] ";"
              [ "_value" idents ";" ] { spec idents ";" } statement
type        = "_integer" | "_boolean"
idents      = ident { "," ident }
segment     = idents "[" bound { "," bound } "]"
bound       = expr ":" expr
fixed       = idents "[" pair @PAIRS@ "]"
pair        = const ":" const
const       = [ "+" | "-" ] number
spec        = type [ "_array" | "_procedure" ] | "_label" | "_switch"
            | "_string" | "_procedure"
statement   = ident afterident | plain | for
            | "_if" expr "_then" branch
afterident  = ":" statement | simplerest
simplerest  = nothing | "(" actual { "," actual } ")"
            | "[" exprs "]" ":=" right | ":=" right
plain       = nothing | begin | "_goto" expr
branch      = ident branchident | plain else | for
branchident = ":" branch | simplerest else
else        = [ "_else" statement ]
for         = "_for" ident ":=" element { "," element } "_do" statement
element     = expr elementrest
elementrest = nothing | "_step" expr "_until" expr | "_while" expr
exprs       = expr { "," expr }
actual      = expr | string
right       = ident rightident | "_if" expr "_then" simple "_else" expr
            | other
rightident  = "(" actual { "," actual } ")" tails | "[" exprs "]" rightrest
            | rightrest
rightrest   = ":=" right | tails
other       = "_not" rel conjtail disjtail impltail equivtail
            | "+" term arithtail reltail conjtail disjtail impltail equivtail
            | "-" term arithtail reltail conjtail disjtail impltail equivtail
            | firstprim tails
firstprim   = number | "_true" | "_false" | "(" expr ")"
tails       = factortail termtail arithtail reltail conjtail disjtail impltail equivtail
expr        = simple | "_if" expr "_then" simple "_else" expr
simple      = impl equivtail
equivtail   = { "_equiv" impl }
impl        = disj impltail
impltail    = { "_impl" disj }
disj        = conj disjtail
disjtail    = { "_or" conj }
conj        = neg conjtail
conjtail    = { "_and" neg }
neg         = [ "_not" ] rel
rel         = arith reltail
reltail     = [ ( "<" | "<=" | "=" | ">=" | ">" | "<>" ) arith ]
arith       = [ "+" | "-" ] term arithtail
arithtail   = { ( "+" | "-" ) term }
term        = factor termtail
termtail    = { ( "*" | "_div" ) factor }
factor      = primary factortail
factortail  = { "^" primary }
primary     = firstprim | ident identtail
identtail   = nothing | "(" actual { "," actual } ")" | "[" exprs "]"
'''.replace("@PAIRS@", '[ "," pair ' * 29 + "] " * 29)

END = 8


class RightReader(Reader):
    @staticmethod
    def repeat(loop, group):
        return (group, loop)


def build():
    """The table (rule, tag) -> reversed body, with a check for conflicts."""
    reader = RightReader(LL_TEXT)
    g = reader.rules
    g["string bytes"] = [(), (6, "string bytes")]
    nullable, first, follow = set(), {n: set() for n in g}, {n: set() for n in g}
    follow["program"].add(END)
    changed = True
    while changed:
        changed = False
        for name, bodies in g.items():
            for body in bodies:
                empty = True
                for x in body:
                    add = {x} if isinstance(x, int) else first[x]
                    if not add <= first[name]:
                        first[name] |= add
                        changed = True
                    if isinstance(x, int) or x not in nullable:
                        empty = False
                        break
                if empty and name not in nullable:
                    nullable.add(name)
                    changed = True
    changed = True
    while changed:
        changed = False
        for name, bodies in g.items():
            for body in bodies:
                after = set(follow[name])
                for x in reversed(body):
                    if isinstance(x, int):
                        after = {x}
                        continue
                    if not after <= follow[x]:
                        follow[x] |= after
                        changed = True
                    after = first[x] | (after if x in nullable else set())
    table = {}
    for name, bodies in g.items():
        for body in bodies:
            heads, empty = set(), True
            for x in body:
                heads |= {x} if isinstance(x, int) else first[x]
                if isinstance(x, int) or x not in nullable:
                    empty = False
                    break
            if empty:
                heads |= follow[name]
            for tag in heads:
                assert (name, tag) not in table, ("conflict", name, tag)
                table[name, tag] = body[::-1]
    return table


_TABLE = None


def structure_fault(text2):
    """Index in text 2 of the symbol at which `structure` stands, or None.

    The last symbol of text 2 is the end (tag 8)."""
    global _TABLE
    if _TABLE is None:
        _TABLE = build()
    table = _TABLE
    stack = ["program"]
    for at, symbol in enumerate(text2):
        tag = symbol[0]
        if tag == END:
            while stack:
                body = table.get((stack.pop(), END))
                if body is None:
                    return at
                stack.extend(body)
            return None
        while True:
            if not stack:
                return at
            x = stack.pop()
            if x.__class__ is int:
                if x != tag:
                    return at
                break
            body = table.get((x, tag))
            if body is None:
                return at
            stack.extend(body)
    raise AssertionError("text 2 without an end")
