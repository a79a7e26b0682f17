class A(Module):
    def __init__(self):
        cd = ClockDomain()
        self.all = [cd]
        self.clock_domains += self.all
        self.cd_a = cd
        self.cd_b = cd
