class A(Module):
    def __init__(self):
        self.a = Signal(4)
        self.n = Signal((4, True))
        self.y = self.a >> self.n
