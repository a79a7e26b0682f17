# two ports that write one memory: of two writes to one word at one clock the later port's wins
class Two(Module):
    def __init__(self):
        self.m = Memory(2, 4)
        self.a = self.m.get_port(True, mode=READ_FIRST)
        self.b = self.m.get_port(True, mode=NO_CHANGE)
        self.ios = [self.a.adr, self.a.dat_w, self.a.we, self.b.adr, self.b.dat_w, self.b.we, self.a.dat_r, self.b.dat_r]
