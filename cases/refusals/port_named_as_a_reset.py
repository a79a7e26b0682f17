class A(Module):
    def __init__(self):
        self.reset = Signal(name="slow_rst")
        self.a = Signal()
        self.sync.slow += self.a.eq(~self.a)
        self.ios = [self.reset]
