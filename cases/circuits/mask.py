class Mask(Module):
    def __init__(self):
        self.a = Signal(16)
        self.m = Signal(16)
        self.r = Signal(16)
        self.z = Signal(1)
        self.ios = [self.a, self.m, self.r, self.z]
        self.comb += self.r.eq(self.a & self.m)
        self.comb += self.z.eq(self.r == self.m)
