class A(LiteXModule):
    def __init__(self):
        self.f = FSM()
        self.f.act("A")
        self.submodules += self.f
