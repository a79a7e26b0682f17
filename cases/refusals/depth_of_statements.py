class A(Module):
    def __init__(self):
        self.a = Signal()
        x = self.a.eq(1)
        for i in range(64):
            x = If(self.a, x)
