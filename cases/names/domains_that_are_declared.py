class A(Module):
    def __init__(self):
        self.late = ClockDomain(reset_less=True)
        self.clock_domains.cd_pix = ClockDomain(True)
        self.clock_domains.cd_late = ClockDomain()
        self.pix_rst = Signal()
        self.late_rst = Signal()
        self.i = Signal((3, True))
        self.o = Signal((3, True))
        self.specials.cross = MultiReg(self.i, self.o, odomain="sys", n=1)
        MultiReg(2, self.pix_rst, "pix")
        self.ios = [self.i, self.o, self.pix_rst, self.late_rst]
