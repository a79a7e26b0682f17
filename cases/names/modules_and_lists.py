class Half(Module):
    def __init__(self):
        self.i = Signal()
        self.o = Signal()
        self.comb += self.o.eq(~self.i)
class Both(Module):
    def __init__(self):
        self.half = [Half(), Half()]
        self.submodules += self.half
        self.comb += self.half[1].i.eq(self.half[0].o)
class Top(Module):
    def __init__(self):
        self.submodules.both = Both()
        extra = Half()
        self.submodules += extra
        self.ios = [self.both.half[0].i, self.both.half[1].o]
        self.comb += extra.i.eq(1)
