class Shifts(Module):
    def __init__(self):
        self.a = Signal(4)
        self.s = Signal((4, True))
        self.n = Signal(3)
        self.left = Signal(11)
        self.right = Signal((6, True))
        self.mean = Signal(4)
        self.ios = [self.a, self.s, self.n, self.left, self.right, self.mean]
        self.comb += [
            self.left.eq(self.a << self.n),
            self.right.eq((self.s >> self.n) + (self.s << 1)),
            self.mean.eq((self.a + self.n) >> 1)
        ]
