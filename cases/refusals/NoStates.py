class A(Module):
    def __init__(self):
        self.a = Signal()
        self.comb += self.a.eq(~self.a)
        f = FSM(reset_state="A")
        g = FSM()
        g.act("A")
