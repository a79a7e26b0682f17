class A(Module):
    def __init__(self):
        self.sys_clk = Signal()
        self.q = Signal()
        self.r = Signal()
        self.ios = [self.q, self.r]
        self.sync.fast += self.q.eq(~self.q)
        self.sync += self.r.eq(self.sys_clk)
