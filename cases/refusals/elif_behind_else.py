class A(Module):
    def __init__(self):
        self.a = Signal()
        self.comb += If(self.a).Else().Elif(
            self.a)
