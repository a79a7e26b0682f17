class A(Module):
    def __init__(self):
        self.a = Signal()
        self.b = Signal()
        self.comb += Array([self.a, self.b])[self.a].eq(1)
