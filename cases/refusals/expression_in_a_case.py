class A(Module):
    def __init__(self):
        self.a = Signal()
        self.comb += [
            Case(self.a, {0: self.a})]
