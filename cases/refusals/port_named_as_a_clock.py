class A(Module):
    def __init__(self):
        self.clock = Signal(name="sys_clk")
        self.a = Signal()
        self.sync += self.a.eq(~self.a)
        self.ios = [self.clock]
