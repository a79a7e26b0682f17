class Cross(Module):
    def __init__(self, value, to):
        self.first = MultiReg(value, to, n=1, odomain="fast")

class A(Module):
    def __init__(self):
        self.a = Signal((3, True))
        self.b = Signal(2)
        self.y = Signal(5)
        self.z = Signal((2, True))
        self.both = Signal(3)
        self.ios = [self.a, self.b, self.y, self.z, self.both]
        self.comb += If(self.b[0], self.both[0].eq(0))
        self.cross = Cross(self.a - self.b, self.y)
        self.specials += [MultiReg(self.b, self.z, n=3), (MultiReg(-3, self.both),)]
        self.cd_fast = ClockDomain(reset_less=True)
