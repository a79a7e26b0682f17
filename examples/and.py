class And(Module):
    def __init__(self):
        self.a = Signal(4)
        self.b = Signal(4)
        self.y = Signal(4)
        self.ios = [self.a, self.b, self.y]
        self.comb += self.y.eq(self.a & self.b)
