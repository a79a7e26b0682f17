class A(Module):
    def __init__(self):
        self.a = Signal()
        self.b = Signal()
        self.c = Signal()
        self.comb += [self.a.eq(self.b ^ self.c), self.b.eq(self.c), self.c.eq(self.a)]
