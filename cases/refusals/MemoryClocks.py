class A(Module):
    def __init__(self):
        self.m = Memory(8, 4)
        self.p = self.m.get_port(write_capable=True)
        self.q = self.m.get_port(write_capable=True, clock_domain="pix")
