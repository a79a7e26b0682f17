class A(Module):
    def __init__(self):
        self.a = Signal()
        self.y = Replicate(self.a, 0)
