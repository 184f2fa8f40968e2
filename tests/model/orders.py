"""The orders of the machine: names and numbers, the fields that each has, and how an order stands in a word.

A word has 40 bits. An order is its number times 2^32, its level times 2^24, and its address; a field that it hasn't is 0."""
NAMES = ("", "START", "STOP", "TAKE", "SHORT", "LONG", "KEEP", "ADDR", "FETCH", "PUT",
         "ADD", "SUB", "MUL", "DIV", "POW", "NEG", "LT", "LE", "EQ", "GE", "GT", "NE",
         "NOT", "AND", "OR", "IMPL", "EQUIV", "JUMP", "FALSE", "TEST", "TURN", "BLOCK",
         "LEAVE", "ARRAY", "INDEX", "PROC", "CALL", "FORMAL", "RETURN", "THUNK", "VALUE",
         "PLACE", "NAMEL", "PASS", "BACK", "GIVE", "LIB", "SWITCH", "SWFORM", "LAB", "GO",
         "BASE", "KINDS", "AGREE", "BYVAL", "CALLF")

for _i, _name in enumerate(NAMES):
    if _name:
        globals()[_name] = _i

# The orders that have a level, and those that have no address.
_LEVEL = {"START", "TAKE", "ADDR", "BLOCK", "ARRAY", "INDEX", "PROC", "CALL", "FORMAL",
          "THUNK", "VALUE", "PLACE", "NAMEL", "PASS", "SWITCH", "SWFORM", "LAB", "BASE",
          "KINDS", "AGREE", "BYVAL", "CALLF"}
_NO_ADDRESS = {"STOP", "LONG", "FETCH", "NEG", "NOT", "LEAVE", "BACK", "GIVE", "GO", "BASE"}

HAS_LEVEL = [name in _LEVEL for name in NAMES]
HAS_ADDRESS = [bool(name) and name not in _NO_ADDRESS for name in NAMES]


def code(op, level, address):
    assert 1 <= op <= 55 and 0 <= level < 256 and 0 <= address < 1 << 24
    return (op << 32) + (level << 24) + address


def decode(word):
    """(op, level, address), or None where the word is no order."""
    op, level, address = word >> 32, (word >> 24) & 255, word & 0xFFFFFF
    if not 1 <= op <= 55:
        return None
    if level and not HAS_LEVEL[op]:
        return None
    if address and not HAS_ADDRESS[op]:
        return None
    return op, level, address
