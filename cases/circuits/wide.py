class Wide(Module):
    def __init__(self):
        self.a = Signal(64)
        self.b = Signal((63, True))
        self.y = Signal(64)
        self.z = Signal()
        self.ios = [self.a, self.b, self.y, self.z]
        product = self.a[:63] * self.a[1:64]
        self.comb += [
            self.y.eq((product >> 62) ^ self.b),
            self.z.eq(self.a - self.b < -self.b)
        ]
