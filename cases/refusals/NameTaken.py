class A(Module):
    def __init__(self):
        self.a = Signal()
        self.b = Signal(name="a")
        self.ios = [self.a, self.b]
