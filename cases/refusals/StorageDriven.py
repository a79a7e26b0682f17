class A(Module):
    def __init__(self):
        self.p = Memory(8, 4).get_port(async_read=True)
        self.comb += self.p.dat_r.eq(0)
