class A(Module):
    def __init__(self):
        for k in range(3):
            x = Signal(k + 1)
        self.y = Signal()
        self.ios = [self.y]
