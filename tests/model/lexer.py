"""From a tape to text 1, the symbols of a program, and to text 2, where identifiers and numbers are assembled.

A symbol is a tuple (tag, value, line). A fault is a tuple (position, line, text), and faults come in the order of positions.
Nothing here knows of structure."""

# So many bytes a program has at most.
LONGEST_PROGRAM = 524288

# The greatest number.
NUMBER_LIMIT = 549755813887

# The standard procedures. Their places here are their identifier numbers.
STANDARD = ("outinteger", "outtext", "outcr", "outchar",
            "ininteger", "inchar", "abs", "sign")

# Tags of signs and of word symbols.
SIGNS = {"+": 10, "-": 11, "*": 12, "^": 14, "<": 15, "<=": 16, "=": 17,
         ">=": 18, ">": 19, "<>": 20, ",": 28, ":": 29, ";": 30, ":=": 31,
         "(": 32, ")": 33, "[": 34, "]": 35}
WORDS = {"div": 13, "not": 21, "and": 22, "or": 23, "impl": 24, "equiv": 25,
         "true": 26, "false": 27, "begin": 36, "end": 37, "if": 38, "then": 39,
         "else": 40, "for": 41, "step": 42, "until": 43, "while": 44, "do": 45,
         "goto": 46, "integer": 47, "boolean": 48, "array": 49, "switch": 50,
         "procedure": 51, "string": 52, "label": 53, "value": 54, "own": 55,
         "comment": 56}

BEGIN, END, ELSE, COMMENT, SEMICOLON = WORDS["begin"], WORDS["end"], WORDS["else"], WORDS["comment"], SIGNS[";"]

LAYOUT = frozenset((9, 10, 13, 32))
PLAIN_WORDS = {name.encode(): tag for name, tag in WORDS.items()}
QUOTED_WORDS = {name.upper().encode(): tag for name, tag in WORDS.items()}
SIGN_BYTES = {name.encode(): tag for name, tag in SIGNS.items()}


def program_of(tape):
    """(The bytes of the program, or None where it is too long; how many bytes of the tape are taken for it).

    The program ends before the first `#`, which is taken with it, or with the tape."""
    at = tape.find(b"#", 0, LONGEST_PROGRAM + 1)
    if at >= 0:
        return tape[:at], at + 1
    if len(tape) > LONGEST_PROGRAM:
        return None, LONGEST_PROGRAM + 1
    return tape, len(tape)


def read_word(text, at, quoted):
    """A word symbol at `at`: (its tag, or None where it is none; the place behind it).

    A plain one is `_` and all small letters behind it; a quoted one is capital letters between two `'`."""
    n = len(text)
    stop = at + 1
    if not quoted:
        while stop < n and 97 <= text[stop] <= 122:
            stop += 1
        return PLAIN_WORDS.get(text[at + 1:stop]), stop
    while stop < n and 65 <= text[stop] <= 90:
        stop += 1
    name = text[at + 1:stop]
    if stop < n and text[stop] == 39:
        return QUOTED_WORDS.get(name), stop + 1
    return None, stop


def symbols(text):
    """(Text 1; the faults of characters, words and strings). A program that begins with `!` is in the quoted spelling."""
    out, faults = [], []
    n = len(text)
    at, line = 0, 1
    quoted = n > 0 and text[0] == 33
    if quoted:
        at = 1                       # `!` gives nothing
    starter = 39 if quoted else 95   # ' or _
    fresh = False                    # directly behind `;` or begin, where a comment may stand
    while at < n:
        c = text[at]
        if c in LAYOUT:                                   # layout
            if c == 10:
                line += 1
            at += 1
            continue
        if 97 <= c <= 122 or 65 <= c <= 90:               # letters
            out.append((1, c, line))
            fresh = False
            at += 1
            continue
        if 48 <= c <= 57:
            out.append((2, c - 48, line))
            fresh = False
            at += 1
            continue
        if c == starter:                                  # word symbols
            tag, stop = read_word(text, at, quoted)
            if tag is None or (tag == COMMENT and not fresh):
                faults.append((at, line, "word"))
                fresh = False
                at = stop
                continue
            at = stop
            if tag == COMMENT:                             # comments
                end = text.find(b";", at)
                end = n if end < 0 else end + 1
                line += text.count(b"\n", at, end)
                at = end
                continue                                  # `fresh` stays
            out.append((tag, 0, line))
            fresh = tag == BEGIN
            if tag == END:                                # and what stands behind end
                while at < n:
                    c = text[at]
                    if c == 59:
                        break
                    if c == starter:
                        tag, stop = read_word(text, at, quoted)
                        if tag in (END, ELSE):
                            break
                        at = stop
                        continue
                    if c == 10:
                        line += 1
                    at += 1
            continue
        if c == 123:                                      # strings
            depth, stop = 1, at + 1
            while stop < n:
                d = text[stop]
                if d == 123:
                    depth += 1
                elif d == 125:
                    depth -= 1
                    if depth == 0:
                        break
                stop += 1
            if depth:
                faults.append((at, line, "string"))
                break                                     # takes the rest
            out.append((5, 0, line))
            for d in text[at + 1:stop]:
                out.append((6, d, line))
                if d == 10:
                    line += 1
            out.append((7, 0, line))
            fresh = False
            at = stop + 1
            continue
        tag = SIGN_BYTES.get(text[at:at + 2])             # signs
        size = 2
        if tag is None or at + 2 > n:
            tag = SIGN_BYTES.get(text[at:at + 1])
            size = 1
        if tag is None:                                   # no symbol begins so
            faults.append((at, line, "character"))
            fresh = False
            at += 1
            continue
        out.append((tag, 0, line))
        fresh = tag == SEMICOLON
        at += size
    out.append((8, 0, 1 + text.count(b"\n")))
    return out, faults


def assembled(text1):
    """(Text 2; the faults of numbers; the identifiers by their numbers). `)`, letters, `:` and `(` become a comma."""
    out, faults = [], []
    letters_only = []                # beside `out`: identifier of letters only
    numbers = {name: i for i, name in enumerate(STANDARD)}
    names = list(STANDARD)
    at, n = 0, len(text1)
    while at < n:
        tag, value, line = text1[at]
        if tag == 1:
            stop = at
            only = True
            chars = []
            while stop < n and text1[stop][0] <= 2:
                t, v, _ = text1[stop]
                if t == 1:
                    chars.append(chr(v))
                else:
                    chars.append(chr(48 + v))
                    only = False
                stop += 1
            out.append((3, "".join(chars), line))
            letters_only.append(only)
            at = stop
        elif tag == 2:
            stop = at
            total = 0
            big = False
            while stop < n and text1[stop][0] == 2:
                if not big:
                    total = total * 10 + text1[stop][1]
                    big = total > NUMBER_LIMIT
                stop += 1
            if big:
                faults.append((len(out), line, "number"))
                total = 0
            out.append((4, total, line))
            letters_only.append(False)
            at = stop
        else:
            out.append(text1[at])
            letters_only.append(False)
            at += 1
    # identifier numbers, then the parameter commas from left to right
    def number_of(name):
        if name not in numbers:
            numbers[name] = len(names)
            names.append(name)
        return numbers[name]
    final = []
    at, n = 0, len(out)
    while at < n:
        s = out[at]
        if (s[0] == 33 and at + 3 < n and out[at + 1][0] == 3
                and letters_only[at + 1] and out[at + 2][0] == 29
                and out[at + 3][0] == 32):
            number_of(out[at + 1][1])
            final.append((28, 0, s[2]))
            at += 4
            continue
        if s[0] == 3:
            s = (3, number_of(s[1]), s[2])
        final.append(s)
        at += 1
    return final, faults, names
