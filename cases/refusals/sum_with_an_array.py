class A(Module):
    def __init__(self):
        self.a = Signal()
        self.a + Array([self.a])
