# A round-robin arbiter of three clients: of those that ask, the one is served that comes next behind the last one served.
from migen import *


class Arbiter(Module):
    def __init__(self):
        self.ask = Signal(3)
        self.serve = Signal(3)
        self.ios = [self.ask, self.serve]

        # behind client k come k + 1, k + 2 and k; the last assignment that is taken wins, so the next one stands last
        choice = [[If(self.ask[(k + d) % 3], self.serve.eq(1 << (k + d) % 3)) for d in [3, 2, 1]] for k in range(3)]
        last = Signal(max=3)
        self.comb += Case(last, {0: choice[0], 1: choice[1], 2: choice[2]})
        self.sync += Case(self.serve, {0b001: last.eq(0), 0b010: last.eq(1), 0b100: last.eq(2)})
