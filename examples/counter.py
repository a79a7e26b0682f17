# A counter with an enable: it counts the clocks in which `en` is 1 from 0 to `period - 1` and begins again; `tick` is 1
# in the last one of each period.
from migen import *


class Counter(Module):
    def __init__(self, period=10):
        self.en = Signal()
        self.tick = Signal()
        self.count = Signal(max=period)
        self.ios = [self.en, self.tick, self.count]

        self.comb += self.tick.eq(self.en & (self.count == period - 1))
        self.sync += If(self.en,
            If(self.tick,
                self.count.eq(0)
            ).Else(
                self.count.eq(self.count + 1)
            )
        )
