class A(Module):
    def __init__(self):
        self.p = Memory(8, 4).get_port()
        self.sync += If(self.p.adr == 1, self.p.dat_r.eq(0))
