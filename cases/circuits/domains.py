class Domains(Module):
    def __init__(self):
        self.d = Signal(2)
        self.a = Signal(2, reset=1)
        self.b = Signal(2, reset=2)
        self.c = Signal(2)
        self.ios = [self.d, self.a, self.b, self.c]
        self.sync.slow += self.b.eq(self.a)
        self.sync.fast += self.a.eq(self.b ^ self.d)
        self.sync += If(self.d, self.c.eq(self.a + self.b))
