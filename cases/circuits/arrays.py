class Arrays(Module):
    def __init__(self, n=3):
        self.i = Signal(2)
        self.d = Signal(4)
        self.q = [Signal(4, reset=k) for k in range(n)]
        self.y = Signal((6, True))
        self.w = Signal(8)
        self.ios = [self.i, self.d, self.y, self.w] + self.q
        items = Array(self.q)
        self.sync += items[self.i].eq(self.d)
        self.comb += [
            self.y.eq(Array([self.d, C(-5, (4, True)), 9])[self.i] - 1),
            Array([self.w[0:4], Cat(self.w[6], self.w[4:6])])[self.i].eq(items[self.i] + 1)
        ]
