class A(Module):
    def __init__(self):
        self.a = Signal()
        self.b = Signal()
        self.submodules.f = FSM()
        self.f.act("A",
            self.a.eq(self.b))
        self.comb += self.b.eq(~self.a)
