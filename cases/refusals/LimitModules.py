class B(Module):
    def __init__(self): pass
class A(Module):
    def __init__(self):
        [B() for i in range(4096)]
