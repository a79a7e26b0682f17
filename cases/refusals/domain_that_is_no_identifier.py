class A(Module):
    def __init__(self):
        self.clock_domains.cd_2x = ClockDomain()
