class A(Module):
    def __init__(self):
        self.a = Signal()
        self.b = Signal()
        self.c = Signal()
        self.comb += Cat(self.a, Array([self.b, self.c])[self.a]).eq(1)
