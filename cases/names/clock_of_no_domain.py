class A(Module):
    def __init__(self):
        self.sys_clk = Signal()
        self.y = Signal()
        self.ios = [self.sys_clk, self.y]
        self.comb += self.y.eq(self.sys_clk)
