class Parity(Module):
    def __init__(self):
        self.p = Signal(32)
        self.q = Signal(32)
        self.t = Signal(32)
        self.u = Signal(32)
        self.ios = [self.p, self.q, self.t, self.u]
        self.comb += self.t.eq(self.p ^ self.q)
        self.comb += self.u.eq(~self.t)
