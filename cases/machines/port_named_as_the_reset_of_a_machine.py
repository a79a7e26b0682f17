class A(Module):
    def __init__(self):
        self.a = Signal(name="sys_rst")
        FSM().act("A")
        self.ios = [self.a]
