# A serial transmitter of 8 data bits, no parity and one stop bit: it takes a byte in a clock in which `valid` and
# `ready` are 1, and sends it from its lowest bit on, `divisor` clocks a bit.
from migen import *


class Transmitter(Module):
    def __init__(self, divisor):
        self.data = Signal(8)
        self.valid = Signal()
        self.ready = Signal()
        self.tx = Signal(reset=1)

        left = Signal(max=11)        # the bits that aren't over, the one on the line among them
        more = Signal(max=divisor)   # the further clocks of the bit on the line
        behind = Signal(9)           # the bits behind it, and then ones

        self.comb += self.ready.eq(left == 0)
        self.sync += [
            If(self.ready,
                If(self.valid,
                    self.tx.eq(0),
                    behind.eq(Cat(self.data, 1)),
                    left.eq(10),
                    more.eq(divisor - 1)
                )
            ).Elif(more == 0,
                Cat(self.tx, behind).eq(Cat(behind, 1)),
                left.eq(left - 1),
                more.eq(divisor - 1)
            ).Else(
                more.eq(more - 1)
            )
        ]


class Uart(Module):
    def __init__(self, clock=50000000, baud=115200):
        self.submodules.transmitter = Transmitter(clock // baud)
        self.data = Signal(8)
        self.valid = Signal()
        self.ready = Signal()
        self.tx = Signal()
        self.ios = [self.data, self.valid, self.ready, self.tx]

        self.comb += [
            self.transmitter.data.eq(self.data),
            self.transmitter.valid.eq(self.valid),
            self.ready.eq(self.transmitter.ready),
            self.tx.eq(self.transmitter.tx)
        ]
