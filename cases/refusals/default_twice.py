class A(Module):
    def __init__(self):
        self.a = Signal()
        self.comb += Case(self.a, {"default": [], "default": []})
