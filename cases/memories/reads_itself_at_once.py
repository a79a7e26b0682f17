class A(Module):
    def __init__(self):
        self.a = Signal(2)
        self.p = Memory(2, 4).get_port(async_read=True)
        self.comb += [self.p.adr.eq(self.a),
            self.a.eq(self.p.dat_r + 1)]
