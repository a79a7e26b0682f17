class A(Module):
    def __init__(self):
        f = FSM(reset_state="A")
        g = FSM()
        self.submodules += [g, f]
        f.act("A", If(f.ongoing("C"), NextState("B")))
        g.act("A", NextState("NONE"))
