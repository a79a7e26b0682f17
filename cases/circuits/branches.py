class Branches(Module):
    def __init__(self):
        self.a = Signal(4)
        self.b = Signal((4, True))
        self.y = Signal(8, reset=9)
        self.z = Signal(8, reset=5)
        self.ios = [self.a, self.b, self.y, self.z]
        self.comb += [
            If(self.a == 0,
                self.y.eq(1)
            ).Elif(self.b < 0,
                self.y.eq(2),
                If(self.a[0], self.z.eq(3)).Else(self.z[:2].eq(self.b))
            ).Elif(self.a,
                self.y[4:].eq(~self.a)
            ).Else(
                self.y.eq(4)
            ),
            If(self.a == 15, self.y.eq(self.b))
        ]
