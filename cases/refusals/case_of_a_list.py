class A(Module):
    def __init__(self):
        self.a = Signal()
        self.comb += Case(self.a, [self.a.eq(1)])
