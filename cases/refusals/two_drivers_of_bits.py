class A(Module):
    def __init__(self):
        self.a = Signal(2)
        self.comb += self.a[0].eq(1)
        self.sync += self.a[1].eq(0)
