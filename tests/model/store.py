"""The stack of activations of a run, and the references to its object. It knows no orders.

An activation has in its first words the place of the one below it, its head (its level times 2^24 and the place of the
enclosing one), and the place behind it; one of a procedure or an evaluation has behind these its return address and what is
wanted of it. Numbers in the stack and in the register are signed; one below zero is no place and no address."""
from model import orders
from model.arithmetic import MASK, Alarm, Spoilt, Steps
from model.data import Data
from model.tracks import Recent

WORDS_OF_TRACK = 40
LEVEL = 1 << 24

# Words of an activation.
BELOW, HEAD, BEHIND, RETURN_ADDRESS, WANTED, RESULT = range(6)
BLOCK_HEADER, CALL_HEADER = 3, 5

# What a post-mortem shows of a return address that is none.
GREATEST_ADDRESS = (1 << 32) - 1


class Store:
    """What a run has: the object, the data, the stack with its register, and the accounts of steps, words and tracks."""

    def __init__(self, words, data=b"", steps=10000000, stack=20000, start=0, places=8, keep_refs=False, keep_misses=False,
                 keep_changes=False):
        self.words = words
        self.decoded = [orders.decode(word) or (0, 0, 0) for word in words]
        self.input = Data(data)
        self.limit = self.left = steps
        self.size = stack
        self.place = start
        self.refs = [] if keep_refs else None
        self.recent = Recent(places if keep_misses else None, keep_changes)
        self.out = bytearray()
        self.greatest = self.orders = 0
        self.stack = [0] * stack
        # places of the activations of procedures and evaluations
        self.procedures = set()
        # the register, and the activation of the label in it
        self.register = self.home = 0
        # the current activation, the place behind the last one, and how many were entered and not left
        self.current = self.top = self.depth = 0
        self.exists = False
        self.track = None

    @property
    def data(self):
        return self.input.data

    @property
    def taken(self):
        return self.input.taken

    @property
    def steps(self):
        return self.limit - self.left

    # the object

    def noted(self, address):
        """Counts a reference to a word of the object."""
        if self.refs is not None:
            self.refs.append(address)
        track = address // WORDS_OF_TRACK
        if track != self.track:
            self.track = track
            self.recent.change(track)

    def address(self, address):
        """The address, where the object has it."""
        if not 0 <= address < len(self.words):
            raise Spoilt
        return address

    def refer(self, address):
        """A word of the object that an order needs besides itself."""
        self.noted(self.address(address))
        return self.words[address]

    # the stack

    def read(self, place):
        if not 0 <= place < self.size:
            raise Spoilt
        return self.stack[place]

    def write(self, place, number):
        self.read(place)
        self.stack[place] = number

    def several(self, place, count):
        """So many words from a place on."""
        if place < 0 or place + count > self.size:
            raise Spoilt
        return self.stack[place:place + count]

    def working(self, address):
        """A word of the current activation."""
        return self.read(self.current + address)

    def visible(self, level):
        """The innermost activation of this level, from the current one outward."""
        base = self.current
        while True:
            head = self.read(base + HEAD) & MASK
            if head // LEVEL == level:
                return base
            if head % LEVEL >= base:
                raise Spoilt
            base = head % LEVEL

    def step(self):
        if self.left == 0:
            raise Steps
        self.left -= 1

    def set_top(self, top):
        self.top = top
        self.greatest = max(self.greatest, top)

    def fill(self, room, head):
        """The first words of an activation at the top, and zeros."""
        base = self.top
        self.stack[base:base + room] = [0] * room
        self.stack[base + BELOW], self.stack[base + HEAD], self.stack[base + BEHIND] = self.current, head, base + room
        self.current = base
        self.set_top(base + room)

    def enter(self, level, room, enclosing, least=BLOCK_HEADER):
        """A new activation above all others, of so many words."""
        if room < least:
            raise Spoilt
        self.read(enclosing)
        self.step()
        if self.top + room > self.size:
            raise Alarm("stack")
        self.procedures.discard(self.top)
        self.fill(room, level * LEVEL + enclosing)
        self.depth += 1

    def call(self, level, room, enclosing, wanted, result=0, values=()):
        """A new activation of a procedure or an evaluation, with the words of its actuals behind that of its result."""
        header = CALL_HEADER + result
        self.enter(level, room, enclosing, header + len(values))
        base = self.current
        self.stack[base + RETURN_ADDRESS], self.stack[base + WANTED] = self.place + 1, wanted
        self.stack[base + header:base + header + len(values)] = values
        self.procedures.add(base)

    def leave(self):
        """Gives up the current activation, and all above it."""
        below = self.below()
        self.top, self.current = self.current, below
        self.depth -= 1

    def below(self):
        """The activation below the current one."""
        below = self.working(BELOW)
        self.read(below)
        if self.depth == 0:
            raise Spoilt
        return below

    # what is left of it at the end

    def activations(self):
        """(shape, words, return address) of each activation, from the innermost outward."""
        out = []
        base, top = self.current, self.top
        while self.exists:
            below = self.left_at(base + BELOW)
            outermost = not 0 <= below < base
            out.append((*self.shape(base, outermost), max(top - base, 0)))
            if outermost:
                break
            top, base = base, below
        return [(shape, words, back) for shape, back, words in out]

    def left_at(self, place):
        return self.stack[place] if place < self.size else 0

    def shape(self, base, outermost):
        """(The shape of an activation, its return address or 0)."""
        if outermost:
            return "program", 0
        if base not in self.procedures:
            return "block", 0
        back = self.left_at(base + RETURN_ADDRESS)
        level = self.left_at(base + HEAD) // LEVEL
        return "evaluation" if level == 0 else "procedure", back if 1 <= back <= GREATEST_ADDRESS else GREATEST_ADDRESS
