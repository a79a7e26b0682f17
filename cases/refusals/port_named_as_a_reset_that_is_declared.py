class A(Module):
    def __init__(self):
        self.clock_domains.pix = ClockDomain()
        self.r = Signal(name="pix_rst")
        self.ios = [self.r]
