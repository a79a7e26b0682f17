class A(Module):
    def __init__(self):
        self.a = Memory(64, 65536)
        self.b = Memory(1, 65535)
        self.c = Memory(1, 2)
