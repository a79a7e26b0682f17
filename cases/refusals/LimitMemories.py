class A(Module):
    def __init__(self):
        self.l = [Memory(1, 1) for i in range(1024)]
        self.m = Memory(1, 1)
