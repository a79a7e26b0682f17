class A(Module):
    def __init__(self):
        self.a = Signal()
        self.comb += self.a.eq(~self.a)
