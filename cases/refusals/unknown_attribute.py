class A(Module):
    def __init__(self):
        self.y = Signal()
        self.comb += self.y.eq(
            self.x + 1)
