class Shared(Module):
    def __init__(self):
        self.a = Signal()
        self.b = Signal()
        self.y = Signal(2)
        self.ios = [self.a, self.b, self.y]
        first = If(self.a, self.y.eq(1))
        other = first.Else(self.y.eq(2))
        self.comb += [other, If(self.b, first), ([], ((),))]
