class A(Module):
    def __init__(self):
        self.a = Signal()
        self.o = Signal(2)
        self.specials += MultiReg(self.a, self.o[0])
