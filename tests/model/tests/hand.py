"""Programs and objects with answers that were worked out by hand from the rules of the language and of the machine."""
from model import orders as o
from model.answer import ERRORS, answer
from model.flat import Flat

# Where it is the answer, the program only has to be without errors.
NO_ERRORS = "*"

# A procedure with a formal by value and one by name.
P = "_procedure p(a, b); _value a; _integer a, b; ;"


def errs(*pairs):
    """The lines that are printed for (line, fault) of each."""
    return "".join("line %d %s\n" % pair for pair in pairs)


# (program, expected bytes)
CASES = [
    # characters, words and strings
    ("_begin {a}b} _end", errs((1, "character"))),
    ("_begin _comment x; _comment y\n; _comment z;\n? _end", errs((3, "character"))),
    ("_begin outcr _comment x; _end", errs((1, "word"))),
    ("_begin ? _comment x; _end", errs((1, "character"), (1, "word"))),
    ("_begin outcr _end _foo } ? {", "\n"),
    ("_begin _beginx _end", errs((1, "word"))),
    ("_begin _ _end", errs((1, "word"))),
    ("_begin\n{abc", errs((2, "string"))),
    ("_begin _comment no end", errs((1, "structure"))),
    ("_begin outcr _comment", errs((1, "word"))),
    ("!'BEGIN' outcr 'END' x 'FOO'END' ; y 'END'", errs((1, "structure"))),
    ("!'BEGIN' 'BEGIN' outcr 'END' 'X'END';outcr 'END'", "\n\n"),
    ("!'BEGIN' 'begin' 'END'", errs((1, "word"), (1, "word"))),
    ("!'BEGIN'!'END'", errs((1, "character"))),
    ("_begin ! _end", errs((1, "character"))),
    # numbers
    ("_begin outinteger(549755813888);\n outinteger(0000549755813888);outinteger(000549755813887) _end",
     errs((1, "number"), (2, "number"))),
    # structure
    ("_begin outcr _end outcr", "\n"),
    ("_begin outcr _end\n; outcr", errs((2, "structure"))),
    ("_begin _if _true _then\n_if _true _then outcr _end", errs((2, "structure"))),
    ("_begin _if _true _then\nL:\n_if _true _then outcr _end", errs((3, "structure"))),
    ("_begin _integer i; _if _true _then _for i:=1 _do outcr\n_else outcr _end", errs((2, "structure"))),
    ("_begin _integer i; _if _true _then _for i:=1 _do _if _true _then outcr _else outcr _end", "\n"),
    ("_begin outinteger(1=2=\n3) _end", errs((1, "structure"))),
    ("_begin outinteger(1+\n-3) _end", errs((2, "structure"))),
    ("_begin outtext({a}+1) _end", errs((1, "structure"))),
    ("_begin _own _switch s:=L; L: _end", errs((1, "structure"))),
    ("_begin _integer a\n_end", errs((2, "structure"))),
    ("_begin _integer a;\n_end", ""),
    ("_begin outcr\n", errs((2, "structure"))),
    ("_begin _own _integer _array a[" + "1:2," * 29 + "1:2]; _end", "*"),
    ("_begin _own _integer _array a[" + "1:2," * 29 + "1:2\n,1:2]; _end", errs((2, "structure"))),
    ("_begin _own _integer _array a[-1:+2,\n-(1):2]; _end", errs((2, "structure"))),
    # scopes
    ("_begin _integer a; a:\n _begin _integer a; a:=1 _end _end", errs((1, "declared twice"))),
    ("_begin _procedure p(a, b, a); _value c, a, a; _integer a, a, d; ;\n;_end",
     errs((1, "not specified"), (1, "declared twice"), (1, "not formal"), (1, "specified twice"),
          (1, "specified twice"), (1, "not formal"))),
    ("_begin _integer i; _for i:=1 _do L: _goto L; _goto L _end", errs((1, "not declared"))),
    ("_begin _integer _procedure f; f:=1; _integer _array a[1:\nf]; _end", errs((2, "local in bound"))),
    ("_begin _own _integer f; _integer _array a[1:\nf]; _end", errs((2, "local in bound"))),
    ("_begin _integer f; _begin _integer _array a[0:f]; outinteger(a[0]) _end _end", "0"),
    ("_begin _integer outcr; outcr:=1; outinteger(outcr) _end", "1"),
    ("_begin _procedure p; L: _begin _integer L; L:=2; outinteger(L) _end; p _end", "2"),
    ("_begin _procedure p(L);_integer L; L: _begin _end; _end", errs((1, "declared twice"))),
    ("L: _begin _integer L; L:=3; outinteger(L) _end", "3"),
    ("L: _begin L: _end", errs((1, "declared twice"))),
    # types
    ("_begin _integer _array a[" + "1:1," * 30 + "1:1]; _end", errs((1, "list too long"))),
    ("_begin _integer _array a[1:1];\na[" + "1," * 30 + "1]:=1 _end",
     errs((2, "subscripts"), (2, "list too long"))),
    ("_begin _procedure p(a); _value a; _integer _array a; ; _end", errs((1, "value"))),
    ("_begin _procedure p; ;\noutinteger(p) _end", errs((2, "parameter"))),
    ("_begin _procedure p; ;\noutinteger((p)) _end", errs((2, "kind"))),
    ("_begin _integer _procedure f(x); _integer x; f:=x;\noutinteger(f); outinteger(f+1); outinteger(f(1)) _end",
     errs((2, "parameter"), (2, "kind"))),
    ("_begin _integer _procedure f; f:=1; f:=2 _end", errs((1, "kind"))),
    ("_begin _integer _procedure f; _begin _procedure g; f:=7; g _end; outinteger(f) _end", "7"),
    ("_begin _boolean b; _for b:=1 _do _end", errs((1, "kind"))),
    ("_begin _integer _array a[1:1]; _boolean b; a[_true\n,b]:=1; a[b]:=2 _end",
     errs((1, "subscripts"), (2, "subscripts"), (2, "subscripts"))),
    ("_begin _switch s:=L; L: _goto s[1,\n2]; _goto s[_true] _end", errs((1, "subscripts"), (2, "subscripts"))),
    ("_begin " + P + "\np(1); p(_true,\n_false); p((_true),(b)) ; _end", errs((3, "not declared"))),
    ("_begin " + P + "\np(1); p(_true\n,_false); p(1,{x}); p({x},1) _end",
     errs((2, "parameter count"), (2, "parameter"), (3, "parameter"), (3, "parameter"), (3, "parameter"))),
    ("_begin " + P + "\np(1,1,_true+1,outtext) _end", errs((2, "parameter count"), (2, "operand"))),
    ("_begin _integer _array a[_true:\n_false,1:(2=2)]; _end",
     errs((1, "bound"), (1, "bound"), (2, "bound"))),
    ("_begin _integer i; _for i:=_true,\n1 _step _true _until _false,\n_true _while 1 _do _end",
     errs((1, "for"), (2, "for"), (2, "for"), (2, "for"), (3, "condition"))),
    ("_begin _if 1 _then outcr; outinteger(_if 2 _then 1\n_else _true) _end",
     errs((1, "condition"), (1, "condition"), (2, "branches"))),
    ("_begin _switch s:=1\n,M; M: _goto 3; _goto M+1 _end",
     errs((1, "designational"), (2, "designational"), (2, "designational"), (2, "operand"))),
    ("_begin _integer a; _boolean b; M: a:=b:=\nM; a:=b:=\n1; b:=a:=_true _end",
     errs((1, "assignment"), (1, "assignment"), (2, "assignment"), (3, "assignment"))),
    ("_begin outinteger(-_true);\noutinteger((1=_true)+1); outinteger(_not 1) _end",
     errs((1, "operand"), (2, "operand"), (2, "operand"), (2, "parameter"), (2, "operand"))),
    ("_begin outcr(1);\nabs; outinteger; _end", errs((1, "kind"), (1, "parameter count"), (2, "kind"), (2, "kind"))),
    ("_begin ininteger; inchar; abs(-3); outinteger(abs(-3)) _end#1", "3"),
    ("_begin outinteger(abs); outinteger((abs)) _end", errs((1, "parameter"), (1, "kind"))),
    ("_begin _procedure q(f); _procedure f; f(ininteger, outcr\n,abs, q, {s}, 1, _true); _end",
     errs((1, "parameter"), (2, "parameter"))),
    ("_begin _procedure q(f); _integer _procedure f; ; _integer _procedure g; g:=1; _procedure h; ;\nq(g); q(h); q(ininteger) _end",
     errs((2, "parameter"), (2, "parameter"))),
    ("_begin _procedure q(f); _integer f; outinteger(f); _integer _procedure g; g:=4; q(g); q(ininteger) _end#5", "45"),
    # runs
    ("_begin outinteger(7 _div (-2)); outinteger((-7) _div (-2)); outinteger(2^38); outinteger((-2)^39) _end",
     "-3" + "3" + str(2 ** 38) + str(-2 ** 39)),
    ("_begin outinteger(2^39) _end", "\n*** alarm spill\n"),
    ("_begin outinteger(1 _div 0) _end", "\n*** alarm division\n"),
    ("_begin outinteger(0^5); outinteger(1^0); outinteger(2^(-1)) _end", "01\n*** alarm power\n"),
    ("_begin outchar(256) _end", "\n*** alarm character\n"),
    ("_begin outinteger(abs(-549755813887-1)) _end", "\n*** alarm spill\n"),
    ("_begin outinteger(549755813887+0); outinteger(16777216); outinteger(16777215) _end",
     "5497558138871677721616777215"),
    ("_begin outtext({}); outtext({12345}); outtext({123456{}}) _end", "12345123456{}"),
    ("_begin _integer _array a[1:2,0:1]; _procedure p(x); _integer _array x; x[1]:=1; p(a) _end",
     "\n*** alarm subscript\n"),
    ("_begin _integer i; _for i:=1 _step 1 _until 3 _do _begin _if i=2 _then _goto L; outinteger(i); L: _end; outinteger(i) _end", "134"),
    ("_begin outinteger(ininteger); outinteger(inchar); outinteger(inchar) _end# ,+12x", "12-1-1"),
    ("_begin outinteger(ininteger) _end#549755813888", "\n*** alarm data\n"),
    ("_begin outinteger(ininteger) _end#- 5", "\n*** alarm data\n"),
    ("_begin outinteger(ininteger) _end#", "\n*** alarm data\n"),
    ("_begin outcr; # ; {", errs((1, "structure"))),
    ("_begin outtext({a#b}) _end", errs((1, "string"))),
    ("_begin _procedure p(f); _procedure f; f(1); _procedure q(x); _boolean x; ; p(q) _end", "\n*** alarm parameters\n"),
    ("_begin _procedure p(f); _procedure f; f; _procedure q(x); _integer x; outinteger(x); p(q) _end", "\n*** alarm parameters\n"),
    ("_begin _procedure p(f); _procedure f; f(1); _procedure q; ; p(q) _end", "\n*** alarm parameters\n"),
    ("_begin _integer i; _procedure p(f); _procedure f; f(i, (i), 3); _procedure q(x, y, z); _value z; _integer x, y, z; "
     "_begin x := 8; outinteger(y + z) _end; p(q); outinteger(i) _end", "118"),
    ("_begin _procedure p(f); _procedure f; f(p2); _integer _procedure p2; p2:=1; _procedure q(x); _integer x; ; p(q) _end", "\n*** alarm parameters\n"),
    ("_begin _procedure p(f); _procedure f; f((p2)); _integer _procedure p2; p2:=1; _procedure q(x); _integer x; outinteger(x); p(q) _end", "1"),
]


def spoilt_cases():
    """(words, the place and the word by which they are spoilt, or None)."""
    c = o.code
    start = c(o.START, 1, 5)
    return [
        ([0], (0, 0)),
        ([c(o.STOP, 0, 0)], (0, c(o.STOP, 0, 0))),
        ([start], (0, start)),
        ([c(o.START, 1, 2), c(o.STOP, 0, 0)], (0, c(o.START, 1, 2))),
        ([start, start, c(o.STOP, 0, 0)], (1, start)),
        ([start, c(o.TAKE, 2, 0), c(o.STOP, 0, 0)], (1, c(o.TAKE, 2, 0))),
        ([start, c(o.KEEP, 0, 64), c(o.STOP, 0, 0)], (1, c(o.KEEP, 0, 64))),
        ([start, c(o.KEEP, 0, 63), c(o.STOP, 0, 0)], None),
        ([start, c(o.JUMP, 0, 1), c(o.STOP, 0, 0)], (1, c(o.JUMP, 0, 1))),
        ([start, c(o.LEAVE, 0, 0), c(o.STOP, 0, 0)], (1, c(o.LEAVE, 0, 0))),
        ([start, c(o.SHORT, 0, 64), c(o.FETCH, 0, 0), c(o.STOP, 0, 0)], (2, c(o.FETCH, 0, 0))),
        ([start, c(o.CALL, 1, 2), c(o.STOP, 0, 0)], (1, c(o.CALL, 1, 2))),
        ([start, c(o.LIB, 0, 9), c(o.STOP, 0, 0)], (1, c(o.LIB, 0, 9))),
        ([start, 1 << 39, c(o.STOP, 0, 0)], (1, 1 << 39)),
        ([start, c(o.STOP, 0, 0) + 1, 0], (1, c(o.STOP, 0, 0) + 1)),
        ([start, c(o.GO, 0, 0), c(o.STOP, 0, 0)], None),
        ([start, c(o.THUNK, 0, 5), c(o.STOP, 0, 0)], (1, c(o.THUNK, 0, 5))),
        ([start, c(o.BASE, 0, 0), c(o.BASE, 1, 0), c(o.STOP, 0, 0)], None),
        ([start, c(o.BLOCK, 2, 2), c(o.STOP, 0, 0)], (1, c(o.BLOCK, 2, 2))),
        ([start, c(o.LONG, 0, 0), 5], (1, c(o.LONG, 0, 0))),
    ]


def wrong_program(text, wanted):
    """Lines that tell how the answer to a program differs."""
    found = answer(["run"], text.encode())
    right = found.status != ERRORS if wanted == NO_ERRORS else found.out == wanted.encode()
    return [] if right else [f"  wanted {wanted!r}", f"  got    {found.out!r}"]


def wrong_object(words, wanted):
    """Lines that tell how the run of an object differs: `wanted` is the place and the word by which it is spoilt, or None."""
    run = Flat(words, stack=64).run()
    seen = run.spoilt if run.ending == "spoilt" else None
    return [] if seen == wanted else [f"  wanted {wanted}", f"  got    {run.ending} {run.spoilt}"]


def checks():
    """(name, lines that tell what is wrong) of each."""
    for text, wanted in CASES:
        yield "by hand: " + text, wrong_program(text, wanted)
    for words, wanted in spoilt_cases():
        yield f"by hand: {words}", wrong_object(words, wanted)
