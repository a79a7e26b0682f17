class A(Module):
    def __init__(self):
        self.submodules.f = FSM(reset_state="B")
        self.f.act("A", NextState("C"))
        a = 1 // 0
