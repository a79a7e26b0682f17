# a memory without ports, and a port whose signals nothing drives
class Never(Module):
    def __init__(self):
        self.m = Memory(2, 2, [1, 2])
        self.n = Memory(2, 1, [3])
        self.p = self.n.get_port(write_capable=True, we_granularity=1)
        self.ios = [self.p.dat_r]
