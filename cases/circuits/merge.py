class Merge(Module):
    def __init__(self):
        self.x = Signal(64)
        self.y = Signal(64)
        self.z = Signal(64)
        self.ios = [self.x, self.y, self.z]
        self.comb += self.x.eq(self.y | self.z)
