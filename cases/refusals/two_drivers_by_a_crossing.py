class A(Module):
    def __init__(self):
        self.a = Signal()
        self.o = Signal()
        self.sync += self.o.eq(0)
        self.specials += MultiReg(self.a, self.o)
