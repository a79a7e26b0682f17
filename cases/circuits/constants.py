class Constants(Module):
    def __init__(self):
        self.a = Signal(6, reset=3)
        self.b = Signal(6, reset=3)
        self.c = Signal((6, True))
        self.ios = [self.a, self.b, self.c]
        self.comb += [
            self.a.eq(C(5) * 7 - 1),
            If(C(0), self.b.eq(1)),
            self.b[4].eq(1),
            self.c.eq(Constant(40, (6, True)) >> 2)
        ]
