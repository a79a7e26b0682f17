# A linear feedback shift register of 16 bits by the polynomial x^16 + x^14 + x^13 + x^11 + 1: while `enable` is 1 it
# goes through all 65535 states but 0, and `bit` is what it shifts out.
from migen import *


class Lfsr(Module):
    def __init__(self, width=16, taps=[13, 12, 10], seed=1):
        self.enable = Signal()
        self.bit = Signal()
        self.state = Signal(width, reset=seed)
        self.ios = [self.enable, self.bit, self.state]

        feedback = self.state[width - 1]
        for tap in taps:
            feedback = feedback ^ self.state[tap]

        self.comb += self.bit.eq(self.state[-1])
        # the lowest bit is new, and the highest one falls off: the target has `width` bits
        self.sync += If(self.enable, self.state.eq(Cat(feedback, self.state)))
