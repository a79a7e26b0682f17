# words of ten bits in parts of five, which a port writes apart
class Parts(Module):
    def __init__(self):
        self.m = Memory(width=10, depth=2, init=[0b1010111001])
        self.p = self.m.get_port(True, True, 5)
        self.ios = [self.p.adr, self.p.dat_w, self.p.we, self.p.dat_r]
