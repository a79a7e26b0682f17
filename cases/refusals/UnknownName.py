class A(Module):
    def __init__(self):
        self.y = Signal(width)
