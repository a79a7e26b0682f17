# Pulse-width modulation of several channels that share one counter: a channel's output is on in `duty` of `2 ** width`
# clocks. A new duty counts from the next period on.
from migen import *


class Channel(Module):
    def __init__(self, counter, width):
        self.duty = Signal(width)
        self.out = Signal()

        held = Signal(width)
        self.sync += If(counter == 2**width - 1, held.eq(self.duty))
        self.comb += self.out.eq(counter < held)


class Pwm(Module):
    def __init__(self, channels=3, width=8):
        self.counter = Signal(width)
        self.sync += self.counter.eq(self.counter + 1)

        self.channel = [Channel(self.counter, width) for i in range(channels)]
        self.submodules += self.channel

        self.ios = [c.duty for c in self.channel] + [c.out for c in self.channel]
