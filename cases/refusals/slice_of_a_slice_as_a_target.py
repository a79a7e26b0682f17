class A(Module):
    def __init__(self):
        self.a = Signal(8)
        self.comb += self.a[4:][0].eq(1)
