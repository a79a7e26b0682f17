# The checksum of a stream of bytes (CRC-8 by x^8 + x^2 + x + 1), a byte at a clock, by a table that the description computes.
from migen import *


class Checksum(Module):
    def __init__(self, polynomial=0x07):
        self.data = Signal(8)
        self.valid = Signal()
        self.sum = Signal(8)
        self.ios = [self.data, self.valid, self.sum]

        contents = []
        for rest in range(256):
            for step in range(8):
                rest = ((rest << 1) ^ (polynomial if rest & 0x80 else 0)) & 0xff
            contents += [rest]
        table = Memory(8, 256, contents)
        port = table.get_port(async_read=True)
        self.specials += [table, port]

        self.comb += port.adr.eq(self.sum ^ self.data)
        self.sync += If(self.valid, self.sum.eq(port.dat_r))
