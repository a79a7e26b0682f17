class Signs(Module):
    def __init__(self):
        self.a = Signal(4)
        self.s = Signal((4, True))
        self.sums = Signal(8)
        self.products = Signal((9, True))
        self.less = Signal(4)
        self.bits = Signal((6, True))
        self.back = Signal((4, True))
        self.ios = [self.a, self.s, self.sums, self.products, self.less, self.bits, self.back]
        self.comb += [
            self.sums.eq((self.a + self.s) - (self.s - 20)),
            self.products.eq(self.a * self.s + self.s * self.s),
            self.less.eq(Cat(self.s < self.a, self.s >= -3, self.a != -1, -self.a <= self.s)),
            self.bits.eq((self.a & self.s) ^ ~self.a | ~self.s),
            self.back.eq(Mux(self.s > 0, self.a, self.s))
        ]
