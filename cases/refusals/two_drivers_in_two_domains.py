class A(Module):
    def __init__(self):
        self.a = Signal()
        self.sync.fast += self.a.eq(1)
        self.sync.slow += self.a.eq(0)
