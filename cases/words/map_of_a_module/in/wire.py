class Wire(Module):
    def __init__(self):
        self.a = Signal(1)
        self.y = Signal(1)
        self.ios = [self.a, self.y]
        self.comb += self.y.eq(self.a)
