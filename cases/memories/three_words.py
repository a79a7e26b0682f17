# three words: the fourth address reads 0, and a write there changes nothing
class Store(Module):
    def __init__(self):
        m = Memory(8, 3, [1, -1, 0x107])
        self.p = m.get_port(write_capable=True)
        self.ios = [self.p.adr, self.p.dat_r, self.p.dat_w, self.p.we]
