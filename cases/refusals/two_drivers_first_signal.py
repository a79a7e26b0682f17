class A(Module):
    def __init__(self):
        self.a = Signal()
        self.b = Signal()
        self.comb += [self.b.eq(1), self.a.eq(1)]
        self.sync += self.b.eq(0)
        self.sync += self.a.eq(0)
