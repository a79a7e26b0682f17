class A(Module):
    def __init__(self):
        self.a = Signal()
        self.b = Signal()
        self.comb += If(self.b, self.a.eq(1))
        self.comb += self.b.eq(self.a)
