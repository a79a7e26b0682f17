class A(Module):
    def __init__(self):
        self.cd_pix = ClockDomain()
        self.y = self.cd_pix.clk
