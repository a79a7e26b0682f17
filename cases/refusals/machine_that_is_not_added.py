class A(Module):
    def __init__(self):
        FSM()
        self.a = Signal()
        self.comb += self.a.eq(self.a)
