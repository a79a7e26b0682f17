class Inv(Module):
    def __init__(self):
        self.i = Signal()
        self.o = Signal()
        self.comb += self.o.eq(~self.i)
class A(Module):
    def __init__(self):
        self.submodules.one = Inv()
        self.submodules.two = Inv()
        self.comb += [self.two.i.eq(self.one.o), self.one.i.eq(self.two.o)]
