class A(Module):
    def __init__(self):
        self.p = Memory(8, 4).get_port()
        self.comb += self.p.dat_w.eq(0)
