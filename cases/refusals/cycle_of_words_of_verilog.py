class A(Module):
    def __init__(self):
        self.reg = Signal()
        self.comb += self.reg.eq(~self.reg)
