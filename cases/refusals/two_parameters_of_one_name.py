class A(Module):
    def __init__(self, a=1, a=2): pass
