class A(Module):
    def __init__(self):
        self.a = Signal()
        self.o = Signal()
        self.specials += MultiReg(self.a, self.o, n=65535)
