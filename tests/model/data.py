"""The data of a run: the bytes behind the program on the tape, taken one by one."""
from model.arithmetic import LEAST, MOST, Alarm

# A run has at most so many bytes of data.
LIMIT = 16777216

BEFORE_A_NUMBER = frozenset(b"\t\n\r ,")
PLUS, MINUS = b"+-"
DIGITS = range(48, 58)
ZERO = 48


class Data:
    """The bytes, and how many of them are taken."""

    def __init__(self, data):
        self.data = data[:LIMIT]
        self.taken = 0

    def next_byte(self):
        """The next byte, or None behind the last."""
        if self.taken < len(self.data):
            self.taken += 1
            return self.data[self.taken - 1]
        return None

    def integer(self):
        """A whole number: layout and commas, a sign or none, digits, and the byte behind them."""
        byte = self.next_byte()
        while byte in BEFORE_A_NUMBER:
            byte = self.next_byte()
        negative = byte == MINUS
        if byte in (PLUS, MINUS):
            byte = self.next_byte()
        if byte not in DIGITS:
            raise Alarm("data")
        number = 0
        while byte in DIGITS:
            number = number * 10 + byte - ZERO
            if (-number if negative else number) < LEAST or (number > MOST and not negative):
                raise Alarm("data")
            byte = self.next_byte()
        return -number if negative else number
