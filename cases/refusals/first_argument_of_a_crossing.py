class A(Module):
    def __init__(self):
        self.a = Signal()
        MultiReg(odomain="2x", n=0, i=self.a, o=1)
