class A(Module):
    def __init__(self):
        self.a = Signal()
        self.b = Signal()
        self.c = Signal()
        self.comb += self.a.eq(self.c)
        self.comb += self.b.eq(self.c ^ self.b)
        self.comb += self.c.eq(self.c)
