"""The flat run: an object, order by order, on a machine with one register and a stack of activations. It knows no program text."""
from model import orders
from model.arithmetic import Alarm, Spoilt, Steps
from model.rows import METHODS, OPERANDS, Rows


class Flat(Rows):
    """One run. Afterwards `ending` is "ended", "alarm", "steps" or "spoilt", with the alarm's name in `alarm`, or (place, word) in
    `spoilt`; `out` is what was printed, and `place` the address of the order that stopped."""

    alarm = spoilt = ending = None

    def run(self):
        """Runs to the end, and gives the run itself."""
        try:
            while self.order():
                pass
            self.ending = "ended"
        except Alarm as alarm:
            self.ending, self.alarm = "alarm", alarm.args[0]
        except Steps:
            self.ending = "steps"
        except Spoilt:
            self.ending, self.spoilt = "spoilt", (self.place, self.words[self.place])
        return self

    def order(self):
        """Does one order; false where it is the last."""
        self.noted(self.place)
        self.orders += 1
        number, level, address = self.decoded[self.place]
        if number == 0 or not self.exists and number != orders.START:
            raise Spoilt
        if number == orders.STOP:
            return False
        self.place = self.operand(number, address) if number in OPERANDS else METHODS[number](self, level, address)
        return True
