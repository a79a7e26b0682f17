class A(Module):
    def __init__(self):
        self.reg = Signal(2)
        self.y = Signal(2)
        self.ios = [self.y]
        self.comb += [self.reg.eq(2), self.y.eq(self.reg)]
