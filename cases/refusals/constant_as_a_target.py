class A(Module):
    def __init__(self):
        self.comb += C(1).eq(0)
