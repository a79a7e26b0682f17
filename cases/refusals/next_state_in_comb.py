class A(Module):
    def __init__(self):
        s = If(1, NextState("A"))
        self.comb += [s]
