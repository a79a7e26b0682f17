class A(Module):
    def __init__(self):
        self.a = Signal(8 // 0)
