class Parts(Module):
    def __init__(self):
        self.a = Signal(8)
        self.b = Signal((5, True))
        self.lo = Signal(3)
        self.hi = Signal(4)
        self.y = Signal(16)
        self.r = Signal(8)
        self.ios = [self.a, self.b, self.lo, self.hi, self.y, self.r]
        self.comb += [
            Cat(self.lo, self.hi[1:3], self.hi[3]).eq(self.a - self.b),
            self.y.eq(Cat(self.b[-1], Replicate(self.a[2:4], 3), self.b, 1)),
        ]
        self.sync += [
            self.r.eq(self.a),
            self.r[2:6].eq(self.b),
            self.r[-1].eq(self.a[:4] == self.b[1:])
        ]
