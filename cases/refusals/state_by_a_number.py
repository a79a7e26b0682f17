class A(Module):
    def __init__(self):
        self.submodules.f = FSM()
        self.f.act(0)
