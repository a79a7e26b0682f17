# A FIFO of any depth: words are put into a memory by one port, and are read by another in their order. The addresses of the
# two ports are registers of their own, which go round.
from migen import *


class Fifo(Module):
    def __init__(self, width=8, depth=5):
        self.put = Signal()
        self.data = Signal(width)
        self.has_room = Signal()
        self.take = Signal()
        self.first = Signal(width)
        self.has_data = Signal()
        self.ios = [self.put, self.data, self.has_room, self.take, self.first, self.has_data]

        level = Signal(max=depth + 1)
        store = Memory(width, depth)
        head = store.get_port(write_capable=True, mode=READ_FIRST)
        tail = store.get_port(async_read=True)
        self.specials += [store, head, tail]

        puts = head.we
        takes = Signal()
        self.comb += [
            self.has_room.eq(level != depth),
            self.has_data.eq(level != 0),
            puts.eq(self.put & self.has_room),
            takes.eq(self.take & self.has_data),
            head.dat_w.eq(self.data),
            self.first.eq(tail.dat_r),
        ]
        self.sync += [
            If(going, If(place == depth - 1, place.eq(0)).Else(place.eq(place + 1)))
            for going, place in [(puts, head.adr), (takes, tail.adr)]
        ]
        self.sync += level.eq(level + puts - takes)
