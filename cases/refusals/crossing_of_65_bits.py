class A(Module):
    def __init__(self):
        self.a = Signal(64)
        self.o = Signal(64)
        self.specials += MultiReg(self.a + 1, self.o)
