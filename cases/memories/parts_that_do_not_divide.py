class A(Module):
    def __init__(self):
        self.m = Memory(8, 4)
        self.p = self.m.get_port(True,
            we_granularity=3)
