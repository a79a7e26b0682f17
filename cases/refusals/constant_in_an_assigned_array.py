class A(Module):
    def __init__(self):
        self.a = Signal()
        self.comb += Array([self.a, 1])[self.a].eq(1)
