"""What each order does: a method for each, with the order's name in small letters. It gives the address of the next order.

A method does first everything by which its order is spoilt, then takes its step, then its room; so an order that is spoilt changes
nothing."""
from model import orders
from model.arithmetic import MASK, Alarm, Spoilt, divide, in_range, power, sign, signed
from model.store import BEHIND, BLOCK_HEADER, RESULT, RETURN_ADDRESS, WANTED, Store

# What can be wanted of an evaluation.
VALUE_WANTED, PLACE_WANTED, LABEL_WANTED = 1, 2, 3

# The kind of an evaluation that has a value and no place, and the greatest kind.
NO_PLACE, LAST_EVALUATION = 0, 3

MOST_SUBSCRIPTS, MOST_ACTUALS, MOST_KINDS = 30, 255, 80

# The word behind PROC has the number of formals twice, and 1 more where there is a result.
GREATEST_SIZE = 2 * MOST_ACTUALS + 1

# Kinds of formals and actuals, ten to a word, four bits each, the first highest. By value: 1 and 2, which as actuals are 3 and 4.
KINDS_OF_WORD, FIRST_SHIFT, KIND_BITS = 10, 36, 4
LAST_BY_VALUE, FIRST_FORMAL, FIRST_ACTUAL, LAST_KIND = 2, 1, 3, 12
BY_VALUE_TAKES = {(1, 3), (2, 4)}

BYTES_OF_WORD = 5
LINE_END, GREATEST_BYTE = 10, 255

# Orders that make a new register of a word of the stack and the register.
OPERANDS = {
    orders.ADD: lambda w, r: in_range(w + r), orders.SUB: lambda w, r: in_range(w - r), orders.MUL: lambda w, r: in_range(w * r),
    orders.DIV: divide, orders.POW: power,
    orders.LT: lambda w, r: int(w < r), orders.LE: lambda w, r: int(w <= r), orders.EQ: lambda w, r: int(w == r),
    orders.GE: lambda w, r: int(w >= r), orders.GT: lambda w, r: int(w > r), orders.NE: lambda w, r: int(w != r),
    orders.AND: lambda w, r: int(bool(w and r)), orders.OR: lambda w, r: int(bool(w or r)),
    orders.IMPL: lambda w, r: int(bool(not w or r)), orders.EQUIV: lambda w, r: int(bool(w) == bool(r)),
}


def kinds_of(word, count, least):
    """The kinds that stand first in a word, so many; the rest of it is zero."""
    kinds = [(word >> (FIRST_SHIFT - KIND_BITS * i)) & 15 for i in range(KINDS_OF_WORD)]
    if any(not least <= kind <= LAST_KIND for kind in kinds[:count]) or any(kinds[count:]):
        raise Spoilt
    return kinds[:count]


class Rows(Store):
    """The orders, in groups: registers, jumps, activations, arrays, names, switches, procedures that are formals, the library."""

    def following(self):
        """The address behind this order, where the object has it."""
        return self.address(self.place + 1)

    def operand(self, number, address):
        word = self.working(address)
        following = self.following()
        self.register = OPERANDS[number](word, self.register)
        return following

    # the register

    def take(self, level, address):
        word = self.read(self.visible(level) + address)
        following = self.following()
        self.register = word
        return following

    def short(self, _, address):
        following = self.following()
        self.register = address
        return following

    def long(self, _, __):
        word = self.refer(self.place + 1)
        following = self.address(self.place + 2)
        self.register = signed(word)
        return following

    def keep(self, _, address):
        following = self.following()
        self.write(self.current + address, self.register)
        return following

    def addr(self, level, address):
        base = self.visible(level)
        following = self.following()
        self.register = base + address
        return following

    def fetch(self, _, __):
        following = self.following()
        self.register = self.read(self.register)
        return following

    def put(self, _, address):
        place = self.working(address)
        following = self.following()
        self.write(place, self.register)
        return following

    def neg(self, _, __):
        following = self.following()
        self.register = in_range(-self.register)
        return following

    def not_(self, _, __):
        following = self.following()
        self.register = int(self.register == 0)
        return following

    def base(self, level, _):
        following = self.following()
        self.register = self.current if level == 0 else self.visible(level)
        return following

    # jumps

    def ahead(self, address):
        """An address further on."""
        if address <= self.place:
            raise Spoilt
        return self.address(address)

    def jump(self, _, address):
        return self.ahead(address)

    def false(self, _, address):
        return self.ahead(address) if self.register == 0 else self.following()

    def test(self, _, address):
        word = self.working(address)
        following = self.following()
        self.register = int(in_range(word * sign(self.register)) <= 0)
        return following

    def turn(self, _, address):
        following = self.address(self.working(address))
        self.step()
        return following

    def lab(self, level, address):
        base = self.visible(level)
        following = self.following()
        self.register, self.home = address, base
        return following

    def go(self, _, __):
        if self.register == 0:
            return self.following()
        following = self.address(self.register)
        top = self.read(self.home + BEHIND) if self.home >= 0 else -1
        if not 0 <= top <= self.size:
            raise Spoilt
        self.step()
        self.current = self.home
        self.set_top(top)
        return following

    # activations

    def start(self, level, address):
        following = self.following()
        if self.exists or address < BLOCK_HEADER:
            raise Spoilt
        if address > self.size:
            raise Alarm("stack")
        self.exists = True
        self.fill(address, level << 24)
        return following

    def block(self, level, address):
        following = self.following()
        self.enter(level, address, self.current)
        return following

    def leave_(self, _, __):
        following = self.following()
        self.leave()
        return following

    def entry(self, address):
        """(Level, room, number of formals, 1 where there is a result) of the procedure at an address."""
        self.refer(address)
        number, level, room = self.decoded[address]
        if number != orders.PROC:
            raise Spoilt
        size = self.refer(address + 1)
        if size > GREATEST_SIZE:
            raise Spoilt
        self.address(address + 2)
        return level, room, size >> 1, size & 1

    def call_(self, level, address):
        of_procedure, room, formals, result = self.entry(address)
        values = self.several(self.current + self.register, 2 * formals) if formals else ()
        self.call(of_procedure, room, self.visible(level), 0, result, values)
        return address + 2

    def return_(self, _, address):
        if address > 1:
            raise Spoilt
        following = self.address(self.working(RETURN_ADDRESS))
        value = self.working(RESULT) if address else self.register
        self.leave()
        self.register = value
        return following

    # arrays

    def array(self, level, address):
        count, place = level, self.current + address
        following = self.following()
        if not 1 <= count <= MOST_SUBSCRIPTS or self.register < 0:
            raise Spoilt
        self.several(place, 2 + 2 * count)
        bounds = self.several(self.current + self.register, 2 * count)
        self.working(BEHIND)
        size = 1
        for low, high in zip(bounds[::2], bounds[1::2]):
            if high < low:
                raise Alarm("bounds")
            size *= high - low + 1
        if self.top + size > self.size:
            raise Alarm("stack")
        self.stack[self.top:self.top + size] = [0] * size
        self.stack[place:place + 2 + 2 * count] = [self.top, count] + bounds
        self.set_top(self.top + size)
        self.stack[self.current + BEHIND] = self.top
        return following

    def index(self, level, address):
        count, place = level, self.current + address
        following = self.following()
        if not 1 <= count <= MOST_SUBSCRIPTS:
            raise Spoilt
        array, *subscripts = self.several(place, 1 + count)
        if array < 0:
            raise Spoilt
        if self.read(array + 1) != count:
            raise Alarm("subscript")
        bounds = self.several(array + 2, 2 * count)
        offset = 0
        for low, high, subscript in zip(bounds[::2], bounds[1::2], subscripts):
            if not low <= subscript <= high:
                raise Alarm("subscript")
            offset = offset * (high - low + 1) + subscript - low
        element = (self.read(array) & MASK) + offset
        self.read(element)
        self.register = element
        return following

    # names

    def evaluate(self, address, enclosing, wanted):
        """Enters the evaluation at an address; gives its first order."""
        self.refer(address)
        number, kind, room = self.decoded[address]
        if number != orders.THUNK or kind > LAST_EVALUATION:
            raise Spoilt
        self.address(address + 1)
        self.call(0, room, enclosing, wanted)
        if kind == NO_PLACE and wanted == PLACE_WANTED:
            raise Alarm("assignment")
        return address + 1

    def formal_name(self, level, address, wanted):
        cell = self.visible(level) + address
        return self.evaluate(self.read(cell), self.read(cell + 1), wanted)

    def value(self, level, address):
        return self.formal_name(level, address, VALUE_WANTED)

    def place_(self, level, address):
        return self.formal_name(level, address, PLACE_WANTED)

    def namel(self, level, address):
        return self.formal_name(level, address, LABEL_WANTED)

    def pass_(self, level, address):
        cell = self.visible(level) + address
        self.read(cell), self.read(cell + 1)
        wanted = self.working(WANTED)
        if wanted not in (VALUE_WANTED, PLACE_WANTED):
            raise Spoilt
        return self.formal_name(level, address, wanted)

    def back(self, _, __):
        if self.working(WANTED) not in (VALUE_WANTED, PLACE_WANTED, LABEL_WANTED):
            raise Spoilt
        following = self.address(self.working(RETURN_ADDRESS))
        self.leave()
        return following

    def give(self, _, __):
        wanted = self.working(WANTED)
        if wanted not in (VALUE_WANTED, PLACE_WANTED):
            raise Spoilt
        following = self.address(self.working(RETURN_ADDRESS))
        value = self.read(self.register) if wanted == VALUE_WANTED else self.register
        self.leave()
        self.register = value
        return following

    # switches

    def designator(self, list_, enclosing):
        """The evaluation of the element that the register counts, or no label."""
        count = self.refer(list_)
        if 1 <= self.register <= count:
            return self.evaluate(self.refer(list_ + self.register), enclosing, LABEL_WANTED)
        following = self.following()
        self.register = self.home = 0
        return following

    def switch(self, level, address):
        return self.designator(address, self.visible(level))

    def swform(self, level, address):
        cell = self.visible(level) + address
        return self.designator(self.read(cell), self.read(cell + 1))

    # procedures that are formals

    def described(self, level, address):
        """(The place of such a formal, the address that it has, the number of kinds there or None where there are none)."""
        cell = self.visible(level) + address
        at = self.read(cell)
        self.refer(at)
        number, count, _ = self.decoded[at]
        if number == orders.PROC:
            return cell, at, None
        if number != orders.KINDS or not 1 <= count <= MOST_KINDS:
            raise Spoilt
        return cell, at, count

    def formal(self, level, address):
        cell, at, count = self.described(level, address)
        if count is not None:
            raise Alarm("parameters")
        result = self.refer(at + 1)
        if result > 1:
            raise Spoilt
        enclosing = self.read(cell + 1)
        self.address(at + 2)
        _, of_procedure, room = self.decoded[at]
        self.call(of_procedure, room, enclosing, 0, result)
        return at + 2

    def callf(self, level, address):
        cell, at, count = self.described(level, address)
        if count is None:
            raise Spoilt
        entry = self.decoded[at][2]
        of_procedure, room, formals, result = self.entry(entry)
        if formals != count or self.register < 0:
            raise Spoilt
        enclosing = self.read(cell + 1)
        self.call(of_procedure, room, enclosing, 0, result, self.several(self.current + self.register, 2 * count))
        return entry + 2

    def agree(self, level, address):
        actuals_at = self.place + 1
        actuals = self.refer(actuals_at)
        _, at, formals = self.described(level, address)
        if not 1 <= actuals <= MOST_ACTUALS:
            raise Spoilt
        if formals != actuals:
            raise Alarm("parameters")
        groups = -(-actuals // KINDS_OF_WORD)
        following = self.address(actuals_at + 1 + groups)
        for group in range(1, 1 + groups):
            here = min(KINDS_OF_WORD, actuals - KINDS_OF_WORD * (group - 1))
            of_formals = kinds_of(self.refer(at + group), here, FIRST_FORMAL)
            of_actuals = kinds_of(self.refer(actuals_at + group), here, FIRST_ACTUAL)
            if any(pair[0] != pair[1] and pair not in BY_VALUE_TAKES for pair in zip(of_formals, of_actuals)):
                raise Alarm("parameters")
        return following

    def byval(self, level, address):
        _, at, count = self.described(level, address)
        following = self.following()
        if count is None or not 1 <= self.register <= count:
            raise Spoilt
        group, place = divmod(self.register - 1, KINDS_OF_WORD)
        kinds = kinds_of(self.refer(at + 1 + group), min(KINDS_OF_WORD, count - KINDS_OF_WORD * group), FIRST_FORMAL)
        self.register = int(kinds[place] <= LAST_BY_VALUE)
        return following

    # the library

    def lib(self, _, address):
        following = self.following()
        if not 1 <= address <= len(LIBRARY):
            raise Spoilt
        LIBRARY[address - 1](self)
        return following

    def out_integer(self):
        self.out += b"%d" % self.register

    def out_text(self):
        length = self.refer(self.register)
        count = -(-length // BYTES_OF_WORD)
        self.address(self.register + count)
        for i in range(count):
            piece = self.refer(self.register + 1 + i).to_bytes(BYTES_OF_WORD, "big")
            self.out += piece[:length - BYTES_OF_WORD * i]

    def out_cr(self):
        self.out.append(LINE_END)

    def out_char(self):
        if not 0 <= self.register <= GREATEST_BYTE:
            raise Alarm("character")
        self.out.append(self.register)

    def in_integer(self):
        self.register = self.input.integer()

    def in_char(self):
        byte = self.input.next_byte()
        self.register = -1 if byte is None else byte

    def absolute(self):
        self.register = in_range(abs(self.register))

    def sign_of(self):
        self.register = sign(self.register)

    def none(self, _, __):
        """PROC, THUNK and KINDS are no orders that can be done."""
        raise Spoilt


LIBRARY = (Rows.out_integer, Rows.out_text, Rows.out_cr, Rows.out_char, Rows.in_integer, Rows.in_char, Rows.absolute, Rows.sign_of)

# The method of each order that isn't among OPERANDS, and isn't STOP.
METHODS = {
    orders.START: Rows.start, orders.TAKE: Rows.take, orders.SHORT: Rows.short, orders.LONG: Rows.long, orders.KEEP: Rows.keep,
    orders.ADDR: Rows.addr, orders.FETCH: Rows.fetch, orders.PUT: Rows.put, orders.NEG: Rows.neg, orders.NOT: Rows.not_,
    orders.JUMP: Rows.jump, orders.FALSE: Rows.false, orders.TEST: Rows.test, orders.TURN: Rows.turn, orders.BLOCK: Rows.block,
    orders.LEAVE: Rows.leave_, orders.ARRAY: Rows.array, orders.INDEX: Rows.index, orders.PROC: Rows.none, orders.CALL: Rows.call_,
    orders.FORMAL: Rows.formal, orders.RETURN: Rows.return_, orders.THUNK: Rows.none, orders.VALUE: Rows.value,
    orders.PLACE: Rows.place_, orders.NAMEL: Rows.namel, orders.PASS: Rows.pass_, orders.BACK: Rows.back, orders.GIVE: Rows.give,
    orders.LIB: Rows.lib, orders.SWITCH: Rows.switch, orders.SWFORM: Rows.swform, orders.LAB: Rows.lab, orders.GO: Rows.go,
    orders.BASE: Rows.base, orders.KINDS: Rows.none, orders.AGREE: Rows.agree, orders.BYVAL: Rows.byval, orders.CALLF: Rows.callf,
}
