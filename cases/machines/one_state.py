class A(Module):
    def __init__(self):
        self.a = Signal(2)
        self.submodules.f = FSM()
        self.on = self.f.ongoing("ONLY")
        self.f.act("ONLY", NextValue(self.a, self.a + 1))
        self.ios = [self.a, self.on]
