class A(Module):
    def __init__(self):
        self.submodules.f = FSM()
        self.f.act("a state with a name that has more than sixty-four bytes, counted whole")
