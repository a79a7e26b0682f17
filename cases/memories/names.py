# names: a memory that nothing binds, one whose name a signal has, and the items of lists; a part is named by its owner
class Cell(Module):
    def __init__(self):
        port = Memory(1, 2).get_port(async_read=True)
        self.specials += port
        self.read = port.dat_r

class Names(Module):
    def __init__(self):
        self.table = Signal()
        table = Memory(1, 2)
        self.both = [Memory(1, 2), Memory(1, 2).get_port(async_read=True)]
        self.ios = [self.table, self.both[1].dat_r]
        self.specials.q = table.get_port(async_read=True)
        self.comb += self.q.adr.eq(self.table)
        self.submodules += [Cell() for i in range(2)]
