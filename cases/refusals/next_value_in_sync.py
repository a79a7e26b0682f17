class A(Module):
    def __init__(self):
        self.a = Signal()
        self.sync += NextValue(self.a, 1)
