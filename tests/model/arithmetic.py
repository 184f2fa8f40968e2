"""The arithmetic of the machine, whole numbers of 40 bits, and the ways in which a run can stop."""

LEAST, MOST = -(1 << 39), (1 << 39) - 1
MASK = (1 << 40) - 1

# Greater powers of other bases than these always spill.
GREATEST_EXPONENT = 40


class Alarm(Exception):
    """The run stops with the alarm of this name."""


class Steps(Exception):
    """The run stops since it has no step left."""


class Spoilt(Exception):
    """The run stops since the object is none that a program becomes."""


def signed(word):
    """The number that stands in a word."""
    return word - (1 << 40) if word >> 39 else word


def in_range(number):
    """The number, where it has room in a word."""
    if LEAST <= number <= MOST:
        return number
    raise Alarm("spill")


def divide(a, b):
    """The quotient, cut off towards zero."""
    if b == 0:
        raise Alarm("division")
    quotient = abs(a) // abs(b)
    return in_range(quotient if (a < 0) == (b < 0) else -quotient)


def power(a, i):
    """a to the power i, where that is a whole number."""
    if i < 0 or (i == 0 and a == 0):
        raise Alarm("power")
    if i == 0:
        return 1
    if a in (0, 1):
        return a
    if a == -1:
        return 1 if i % 2 == 0 else -1
    if i > GREATEST_EXPONENT:
        raise Alarm("spill")
    return in_range(a ** i)


def sign(number):
    """-1, 0 or 1."""
    return (number > 0) - (number < 0)
