class A(Module):
    def __init__(self):
        self.a = Signal()
        self.submodules.f = FSM()
        self.f.act("A", self.a.eq(0),
            NextValue(self.a, 1))
