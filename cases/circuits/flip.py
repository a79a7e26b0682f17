class Flip(Module):
    def __init__(self):
        self.c = Signal()
        self.q = Signal(2, reset=1)
        self.ios = [self.c, self.q]
        self.sync += If(self.c, self.q.eq(~self.q))
