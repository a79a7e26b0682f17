class A(Module):
    def __init__(self):
        self.m = Memory(8, 3, init=[i for i in range(4)])
