class A(Module):
    def __init__(self, width):
        self.a = Signal(width)
