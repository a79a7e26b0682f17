class A(Module):
    def __init__(self):
        self.a = Signal()
        self.y = Signal()
        self.comb += self.y.eq(self.a and
            self.y)
