class A(Module):
    def __init__(self):
        self.clock_domains.cd_pix = [ClockDomain()]
