class A(Module):
    def __init__(self):
        a = Signal(2, name="x")
        b = Signal(3, name="x_2")
        c = Signal(4, name="x")
        self.x = Signal()
        self.ios = [self.x]
