class A(Module):
    def __init__(self):
        self.n = Signal((2, True))
        self.y = Array([1, 2])[self.n]
