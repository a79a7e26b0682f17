class A(Module):
    def __init__(self):
        self.a = Signal(64)
        self.y = self.a * self.a
