class A(Module):
    def __init__(self):
        self.m = Memory(8, 4, (1, 2))
