class Registers(Module):
    def __init__(self):
        self.d = Signal(8)
        self.en = Signal()
        self.plain = Signal(8)
        self.first = Signal(8, reset=0xa5)
        self.kept = Signal(8, reset=7, reset_less=True)
        self.small = Signal((4, True), reset=-3)
        self.ios = [self.d, self.en, self.plain, self.first, self.kept, self.small]
        self.sync += [
            self.plain.eq(self.d),
            If(self.en, self.first.eq(self.d), self.kept.eq(self.first)),
            self.small.eq(self.small - 1)
        ]
