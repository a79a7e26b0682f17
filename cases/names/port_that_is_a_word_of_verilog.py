class A(Module):
    def __init__(self):
        self.wire = Signal()
        reg = Signal(name="wire_")
        self.ios = [self.wire]
