class A(Module):
    def __init__(self):
        self.a = Signal(4)
        self.comb += self.a[1].eq(self.a[0])
