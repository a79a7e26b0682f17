class Ranges(Module):
    def __init__(self):
        self.a = Signal(min=-5, max=3)
        self.b = Signal(max=1)
        self.c = Signal(min=0, max=256)
        self.d = Signal(min=-1, max=1)
        self.e = Signal(min=3)
        self.f = Signal(max=0)
        self.g = Signal(min=-128, max=2**62)
        self.h = Signal((5, False), min=[], max="looked at by nobody", reset=2**100 - 1)
        self.ios = [self.a, self.b, self.c, self.d, self.e, self.f, self.g]
