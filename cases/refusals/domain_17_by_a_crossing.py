class A(Module):
    def __init__(self):
        for i in range(16):
            setattr(self, "cd_d" + str(i), ClockDomain())
        self.a = Signal()
        self.o = Signal()
        MultiReg(self.a, self.o, "d15")
        MultiReg(self.a, self.o, "d16")
