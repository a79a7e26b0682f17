class A(Module):
    def __init__(self):
        self.p = Memory(2, 4).get_port(True)
        self.comb += self.p.we.eq(1)
        self.sync += self.p.we.eq(0)
