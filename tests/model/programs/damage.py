"""Damages to the program on a tape, so that most are no programs any more. The data stay as they are."""
import random
import re


_TOKEN = re.compile(
    rb"_[a-z]*|'[A-Z]*'|[A-Za-z][A-Za-z0-9]*|[0-9]+|:=|<=|>=|<>|\{[^{}]*\}"
    rb"|\s+|.", re.S)
_WORDS = [b'_div', b'_not', b'_and', b'_or', b'_impl', b'_equiv', b'_true',
          b'_false', b'_begin', b'_end', b'_if', b'_then', b'_else', b'_for',
          b'_step', b'_until', b'_while', b'_do', b'_goto', b'_integer',
          b'_boolean', b'_array', b'_switch', b'_procedure', b'_string',
          b'_label', b'_value', b'_own', b'_comment']
_SIGNS = [b'+', b'-', b'*', b'^', b'<', b'<=', b'=', b'>=', b'>', b'<>', b',',
          b':', b';', b':=', b'(', b')', b'[', b']']


def mutate(tape, seed, count=None, kinds='siwbt'):
    """Damages a tape's program text.  kinds: s symbols (delete, insert,
    replace, swap), i identifiers, w words, b bytes, t types and numbers."""
    chance = random.Random('mutate%s' % (seed,))
    text, sharp, data = tape.partition(b'#')
    for _ in range(count or chance.choice([1, 1, 1, 2, 3])):
        text = _damaged(text, chance, kinds)
    return text + sharp + data


def _damaged(text, chance, kinds):
    quoted = text[:1] == b'!'
    kind = chance.choice(kinds)
    if kind == 'b':
        at = chance.randrange(len(text) + 1)
        return text[:at] + chance.choice([
            b'', bytes([chance.randrange(32, 127)]), bytes([chance.randrange(256)]),
            b'$', b'}', b'{', b'_', b"'", b'!', b'#']) + text[at + chance.randrange(2):]
    parts = _TOKEN.findall(text)
    solid = [i for i, p in enumerate(parts) if not p.isspace()]
    if not solid:
        return text
    idents = [i for i in solid if re.match(rb'[A-Za-z]', parts[i])]

    def word(w):
        return b"'" + w[1:].upper() + b"'" if quoted else w
    at = chance.choice(solid)
    if kind == 'i' and idents:
        at = chance.choice(idents)
        if chance.random() < 0.1:
            parts[at] = b'new' + bytes([97 + chance.randrange(3)])
        elif chance.random() < 0.15:
            parts[at] = chance.choice([b'outinteger', b'outtext', b'outcr', b'abs',
                                  b'ininteger', b'inchar', b'sign'])
        else:
            parts[at] = parts[chance.choice(idents)]
    elif kind == 't':
        types = [i for i in solid if parts[i].strip(b"_'").lower() in (
            b'integer', b'boolean', b'label', b'string', b'switch',
            b'procedure', b'value', b'own', b'array')]
        numbers = [i for i in solid if parts[i].isdigit()]
        if types and (not numbers or chance.random() < 0.6):
            at = chance.choice(types)
            parts[at] = word(chance.choice([b'_integer', b'_boolean', b'_label',
                                       b'_string', b'_switch', b'_procedure',
                                       b'_integer', b'_boolean']))
        elif numbers:
            at = chance.choice(numbers)
            parts[at] = chance.choice([b'_true ', b'549755813888', b'{s}', b'0',
                                  b'(1=1)', parts[chance.choice(idents)]
                                  if idents else b'1'])
    elif kind == 'w':
        parts[at] = word(chance.choice(_WORDS)) + b' '
    else:
        c = chance.random()
        new = chance.choice([word(chance.choice(_WORDS)) + b' ', chance.choice(_SIGNS),
                        chance.choice(_SIGNS),
                        parts[chance.choice(solid)], b'1', b'a'])
        if c < 0.3:
            parts[at] = b' '
        elif c < 0.55:
            parts[at] = parts[at] + b' ' + new
        elif c < 0.85:
            parts[at] = new
        else:
            other = chance.choice(solid)
            parts[at], parts[other] = parts[other], parts[at]
    return b''.join(parts)
