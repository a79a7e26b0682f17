# a memory of one word: its address has one bit, and the second address reads 0; the port works in no clock domain
class One(Module):
    def __init__(self):
        self.p = Memory(1, 1, init=[1]).get_port(async_read=True, clock_domain="none")
        self.ios = [self.p.adr, self.p.dat_r]
