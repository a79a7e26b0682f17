class A(Module):
    def __init__(self):
        self.a = Signal()
        b = Signal(2)
        self.ios = [self.a, b, Signal(3), Signal(4, name="c")]
