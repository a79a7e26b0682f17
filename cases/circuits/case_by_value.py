class CaseByValue(Module):
    def __init__(self):
        self.on = Signal((3, True))
        self.y = Signal(4, reset=15)
        self.n = Signal(4)
        self.ios = [self.on, self.y, self.n]
        self.comb += Case(self.on, {
            0: self.y.eq(1),
            -1: [self.y.eq(2), self.y[3].eq(1)],
            7: self.y.eq(3),
            "default": If(self.on > 1, self.y.eq(4)),
            3: [],
        })
        self.sync += Case(self.n, {0: self.n.eq(5), 5: [self.n.eq(9)], 9: self.n.eq(self.on)})
