class A(Module):
    def __init__(self):
        self.a = Signal(4)
        self.comb += Case(self.a, {self.a: []})
