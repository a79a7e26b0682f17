class A(Module):
    def __init__(self):
        self.a = Signal()
        self.b = Signal()
        self.c = Signal()
        self.comb += [self.a.eq(self.c ^ self.b), self.c.eq(self.a), self.b.eq(self.a)]
