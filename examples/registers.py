# A file of registers: two are read at each moment, and of one each byte that is marked is written at the clock. All signals
# of the three ports are ports of the module, but for what the writing one reads.
from migen import *


class Registers(Module):
    def __init__(self, count=8, width=32):
        self.file = Memory(width, count, init=[0x100 + k for k in range(count)])
        self.dest = self.file.get_port(write_capable=True, we_granularity=8, mode=READ_FIRST)
        self.left = self.file.get_port(async_read=True)
        self.right = self.file.get_port(async_read=True)
        self.specials += [self.file, self.dest, self.left, self.right]
        self.ios = [self.dest.adr, self.dest.dat_w, self.dest.we]
        self.ios += [self.left.adr, self.left.dat_r, self.right.adr, self.right.dat_r]
