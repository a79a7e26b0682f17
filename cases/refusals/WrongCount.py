class A(Module):
    def __init__(self):
        self.a = Signal()
        self.y = Mux(self.a, 1)
