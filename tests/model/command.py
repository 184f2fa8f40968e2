"""The words of the command line, and the sample, a program of a chosen length."""


class Command:
    """What the words ask for."""

    def __init__(self, check):
        self.check = check
        self.places, self.steps, self.stack = 8, 10000000, 20000
        self.report = self.table = self.best = self.mortem = False
        self.sample = None


NUMBERS = {"places": (1, 64), "steps": (0, 1000000000000), "stack": (64, 1000000),
           "sample": (0, 2000)}
FLAGS = ("report", "table", "best", "mortem")


def number(text, least, most):
    """Digits without a leading zero, except `0` itself; None where it is none."""
    if not text or any(c not in "0123456789" for c in text):
        return None
    if len(text) > 1 and text[0] == "0" or len(text) > 13:
        return None
    n = int(text)
    return n if least <= n <= most else None


def read_words(words):
    """(Command, 0), or (None, number of the first wrong word from 1)."""
    if not words or words[0] not in ("check", "run"):
        return None, 1
    command = Command(words[0] == "check")
    seen = set()
    for i, word in enumerate(words[1:], 2):
        key, equals, value = word.partition("=")
        if not equals or key in seen or (command.check and key != "sample"):
            return None, i
        seen.add(key)
        if key in NUMBERS:
            n = number(value, *NUMBERS[key])
            if n is None:
                return None, i
            setattr(command, key, n)
        elif key in FLAGS and value == "yes":
            setattr(command, key, True)
        else:
            return None, i
    return command, 0


def sample(k):
    """The sample of k calls."""
    lines = ["_begin _integer s,j;",
             "_procedure p(x); _integer x; s:=x;",
             "_for j:=1 _step 1 _until 3 _do _begin"]
    lines += ["p(s+%d);" % i for i in range(1, k + 1)]
    lines += ["_end;", "outinteger(s); outcr", "_end"]
    return "".join(line + "\n" for line in lines).encode()
