class A(Module):
    def __init__(self):
        self.a = Signal()
        self.b = Signal()
        self.comb += self.a.eq(self.a)
        self.comb += self.b.eq(0)
        self.sync += self.b.eq(0)
