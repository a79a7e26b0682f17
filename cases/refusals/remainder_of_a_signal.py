class A(Module):
    def __init__(self):
        self.a = Signal(4)
        self.y = self.a % 3
