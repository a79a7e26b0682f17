class A(Module):
    def __init__(self):
        self.a = Signal()
        self.b = Signal()
        self.comb += self.b.eq(1)
        self.sync += Array([self.a, self.b])[self.a].eq(1)
